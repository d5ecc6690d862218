/* Two peers over a socket pair: Bob issues guarantees, Alice sends within them, Bob takes the messages and issues
 * their bytes again. */
#include "lcmux.h"

#include <inttypes.h>
#include <stdio.h>
#include <stdlib.h>
#include <sys/socket.h>
#include <unistd.h>

static void stop(const char *what, uint32_t code) {
    char text[64] = "";
    lcmux_text(code, text, sizeof text);
    fprintf(stderr, "%s: %s (%" PRIu32 ")\n", what, text, code);
    exit(1);
}

static void check(const char *what, lcmux_answer answer) {
    if (answer.code != LCMUX_OK)
        stop(what, answer.code);
}

/* Writes all pending bytes to the socket. */
static void flush_out(lcmux_peer *peer, int fd) {
    uint8_t bytes[4096];
    for (;;) {
        lcmux_answer wrote = lcmux_peer_write(peer, bytes, sizeof bytes);
        check("write", wrote);
        if (wrote.number == 0)
            return;
        for (size_t at = 0; at < wrote.number;) {
            ssize_t n = write(fd, bytes + at, wrote.number - at);
            if (n < 0)
                exit(1);
            at += (size_t)n;
        }
    }
}

/* Reads and delivers the available bytes: here one read gets all of them. */
static void read_in(lcmux_peer *peer, int fd) {
    uint8_t bytes[4096];
    ssize_t n = read(fd, bytes, sizeof bytes);
    if (n < 0)
        exit(1);
    lcmux_delivery delivery = lcmux_peer_deliver(peer, bytes, (size_t)n);
    if (delivery.code != LCMUX_OK)
        stop("deliver", delivery.code);
}

int main(void) {
    enum { DATA = 1 };
    lcmux_config config = {1, 16, {1024, 1024, 1024, 1024, 1024, 1024, 1024}};
    lcmux_peer alice = LCMUX_PEER_EMPTY, bob = LCMUX_PEER_EMPTY;
    int wire[2];
    if (socketpair(AF_UNIX, SOCK_STREAM, 0, wire) != 0)
        return 1;
    check("new", lcmux_peer_new(&config, &alice));
    check("new", lcmux_peer_new(&config, &bob));

    lcmux_answer early = lcmux_peer_send(&alice, DATA, (const uint8_t *)"hello", 5);
    printf("without guarantees: code %" PRIu32 ", held %" PRIu64 "\n", early.code, early.number);

    check("issue", lcmux_peer_issue(&bob, DATA, 8));
    flush_out(&bob, wire[1]);
    read_in(&alice, wire[0]);
    check("send", lcmux_peer_send(&alice, DATA, (const uint8_t *)"hello", 5));
    check("limit", lcmux_peer_limit_sending(&alice, DATA, 0));
    flush_out(&alice, wire[0]);
    read_in(&bob, wire[1]);

    uint8_t message[64];
    lcmux_answer took = lcmux_peer_take(&bob, DATA, message, sizeof message);
    check("take", took);
    printf("took %.*s\n", (int)took.number, (const char *)message);
    took = lcmux_peer_take(&bob, DATA, message, sizeof message);
    printf("then: %s\n", took.code == LCMUX_ENDED ? "ended" : "not ended");

    lcmux_server server = LCMUX_SERVER_INIT;
    check("server", lcmux_peer_server(&bob, DATA, &server));
    printf("outstanding %" PRIu64 ", buffered %" PRIu64 ", room %" PRIu64 "\n", server.outstanding, server.buffered, server.room);

    lcmux_peer_free(&alice);
    lcmux_peer_free(&bob);
    printf("after free: code %" PRIu32 "\n", lcmux_peer_free(&bob).code);
    close(wire[0]);
    close(wire[1]);
    return 0;
}
