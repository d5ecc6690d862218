#include "session.h"

#include <arpa/inet.h>
#include <stdio.h>
#include <stdlib.h>
#include <string.h>
#include <sys/socket.h>

/* What is still to be sent, and whether this direction of the channel is finished. */
struct sending {
    char **next, **end;
    int finished;
};

static int send_all(struct session *session, struct sending *it) {
    for (; it->next < it->end; it->next++) {
        const char *text = *it->next;
        int made = session_made("send", lcmux_peer_send(&session->peer, DATA, (const uint8_t *)text, strlen(text)));
        if (made != 1)
            return made;
    }
    if (!it->finished) {
        int made = session_made("finish", lcmux_peer_finish(&session->peer, DATA)); /* half-close */
        if (made != 1)
            return made;
        it->finished = 1;
    }
    return 0;
}

static int print_all(struct session *session) {
    static uint8_t message[RING];
    size_t len;
    do {
        if (session_take(session, message, sizeof message, &len) < 0)
            return -1;
        if (len > 0)
            printf("%.*s\n", (int)len, (const char *)message);
    } while (len > 0);
    return 0;
}

static int talk(struct session *session, struct sending *sending) {
    while (!session_is_over(session)) {
        if (send_all(session, sending) < 0 || print_all(session) < 0)
            return -1;
        if (session->all_received && session_close(session) < 0)
            return -1;
        if (!session_is_over(session) && session_move(session) < 0)
            return -1;
    }
    return 0;
}

int main(int argc, char **argv) {
    static struct session session;
    struct sockaddr_in address = {.sin_family = AF_INET, .sin_addr.s_addr = htonl(INADDR_LOOPBACK)};
    int fd = socket(AF_INET, SOCK_STREAM, 0);
    if (argc < 2) {
        fprintf(stderr, "usage: client PORT [MESSAGE]...\n");
        return 2;
    }
    address.sin_port = htons((uint16_t)atoi(argv[1]));
    if (fd < 0 || connect(fd, (struct sockaddr *)&address, sizeof address) < 0) {
        perror("connect");
        return 1;
    }
    struct sending sending = {argv + 2, argv + argc, 0};
    if (session_open(&session, fd) < 0 || talk(&session, &sending) < 0)
        return 1;
    session_free(&session);
    printf("the session is closed\n");
    return 0;
}
