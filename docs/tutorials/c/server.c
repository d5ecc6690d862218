#include "session.h"

#include <arpa/inet.h>
#include <stdio.h>
#include <stdlib.h>
#include <sys/socket.h>

/* No message is taken before the last one is echoed: so the ring fills, and a client that does not read has to wait. */
static int echo(struct session *session) {
    static uint8_t message[RING];
    size_t len = 0;
    int count = 0;
    while (!session_is_over(session)) {
        if (len == 0 && session_take(session, message, sizeof message, &len) < 0)
            return -1;
        if (len > 0) {
            int made = session_made("send", lcmux_peer_send(&session->peer, DATA, message, len));
            if (made < 0)
                return -1;
            if (made == 1) {
                count++;
                len = 0;
                continue;
            }
        }
        if (session->all_received && len == 0 && session_close(session) < 0)
            return -1;
        if (!session_is_over(session) && session_move(session) < 0)
            return -1;
    }
    printf("echoed %d messages\n", count);
    return 0;
}

/* One client after another: to serve several at once, give poll the sockets of all their sessions. */
static void serve(int listener) {
    static struct session session;
    int fd = accept(listener, NULL, NULL);
    if (fd < 0) {
        perror("accept");
        return;
    }
    if (session_open(&session, fd) < 0 || echo(&session) < 0)
        fprintf(stderr, "a session failed\n");
    session_free(&session);
}

int main(int argc, char **argv) {
    struct sockaddr_in address = {.sin_family = AF_INET, .sin_addr.s_addr = htonl(INADDR_LOOPBACK)};
    int listener = socket(AF_INET, SOCK_STREAM, 0), yes = 1;
    if (argc != 2) {
        fprintf(stderr, "usage: server PORT\n");
        return 2;
    }
    address.sin_port = htons((uint16_t)atoi(argv[1]));
    if (listener < 0 || setsockopt(listener, SOL_SOCKET, SO_REUSEADDR, &yes, sizeof yes) < 0 ||
        bind(listener, (struct sockaddr *)&address, sizeof address) < 0 || listen(listener, 16) < 0) {
        perror("listen");
        return 1;
    }
    setvbuf(stdout, NULL, _IOLBF, 0);
    printf("listening on 127.0.0.1:%s\n", argv[1]);
    for (;;)
        serve(listener);
}
