/* Two sessions over a TCP connection, in one thread with one poll: a client sends messages, and a server sends each back.
 *
 *     cc mux_echo.c $(pkg-config --cflags --libs lcmux) -o mux_echo
 *     ./mux_echo
 *
 * A session decides itself which message is written next. So a program moves bytes when poll says so, and acts on the
 * notices of calls that waited. */
#define _GNU_SOURCE
#include "lcmux.h"

#include <arpa/inet.h>
#include <errno.h>
#include <inttypes.h>
#include <netinet/tcp.h>
#include <poll.h>
#include <stdbool.h>
#include <stdio.h>
#include <stdlib.h>
#include <string.h>
#include <sys/socket.h>
#include <unistd.h>

enum { DATA = 1, RING = 8192, MESSAGES = 1000, LONGEST = 5000, CHUNK = 4096 };

/* One end of the connection. */
struct side {
    lcmux_mux mux;
    int fd;
    uint8_t out[CHUNK]; /* bytes that count as written, and that the socket did not accept yet */
    size_t from, to;
    bool is_shut;   /* this side has ended its stream */
    bool has_ended; /* the other side has ended its stream */
    bool waits;     /* the last message waits: no further one is sent before its notice */
    uint64_t messages, bytes; /* what was sent of the client, and what came of the server */
};

static void fail(const char *what) {
    perror(what);
    exit(1);
}

static void must(uint32_t code, const char *what) {
    if (code == LCMUX_OK)
        return;
    fprintf(stderr, "%s: %s\n", what, lcmux_strerror(code));
    exit(1);
}

/* Sends a message, or leaves it in the wait queue of the channel. The ticket tells calls apart; one is enough here. */
static void send_message(struct side *it, const uint8_t *body, size_t len) {
    uint32_t code = lcmux_mux_send(&it->mux, DATA, 1, body, len).code;
    it->waits = code == LCMUX_WAITS;
    if (!it->waits)
        must(code, "send");
}

/* Whether the message that waited was sent. */
static bool take_notices(struct side *it) {
    lcmux_notice notice = LCMUX_NOTICE_INIT;
    bool waited = it->waits;
    while (lcmux_mux_next_notice(&it->mux, &notice).code == LCMUX_OK) {
        must((uint32_t)notice.outcome, "notice");
        it->waits = false;
    }
    return waited && !it->waits;
}

/* The client sends messages of many lengths, and compares what comes back. It closes once all are back. */
static void act_as_client(struct side *it) {
    static uint8_t body[LONGEST], back[LONGEST];
    static uint64_t came;
    lcmux_answer took;
    while (!it->waits && it->messages < MESSAGES) {
        size_t len = 1 + it->messages * 37 % LONGEST;
        memset(body, (int)it->messages, len);
        it->messages++;
        it->bytes += len;
        send_message(it, body, len);
    }
    while ((took = lcmux_mux_take(&it->mux, DATA, back, sizeof back)).code == LCMUX_OK) {
        if (took.number != 1 + came * 37 % LONGEST || back[0] != (uint8_t)came || back[took.number - 1] != (uint8_t)came)
            must(LCMUX_NO_CODE, "another message came back");
        if (++came == MESSAGES)
            must(lcmux_mux_close(&it->mux).code, "close");
    }
}

/* The server sends each message back from where it lies. While its last one waits it takes none: this is the
 * backpressure. It closes once the client has finished the channel. */
static void act_as_server(struct side *it) {
    lcmux_front message;
    lcmux_answer front = {LCMUX_EMPTY, 0};
    while (!it->waits && (front = lcmux_mux_front(&it->mux, DATA, &message)).code == LCMUX_OK) {
        send_message(it, message.first.bytes, front.number);
        must(lcmux_mux_pop(&it->mux, DATA).code, "pop");
        it->messages++;
        it->bytes += front.number;
    }
    if (front.code == LCMUX_ENDED)
        must(lcmux_mux_close(&it->mux).code, "close");
}

/* Writes until nothing is pending, or the socket accepts no more. The frames that leave let waiting calls proceed. */
static void write_out(struct side *it) {
    for (;;) {
        if (it->from == it->to) {
            it->from = 0;
            it->to = lcmux_mux_write(&it->mux, it->out, sizeof it->out).number;
            if (it->to == 0)
                break;
        }
        ssize_t sent = send(it->fd, it->out + it->from, it->to - it->from, MSG_NOSIGNAL | MSG_DONTWAIT);
        if (sent < 0 && (errno == EAGAIN || errno == EWOULDBLOCK || errno == EINTR))
            return;
        if (sent < 0)
            fail("send");
        it->from += (size_t)sent;
    }
    if (!it->is_shut && lcmux_mux_is_done_writing(&it->mux).number) {
        it->is_shut = true;
        if (shutdown(it->fd, SHUT_WR) < 0)
            fail("shutdown");
    }
}

static void read_in(struct side *it) {
    uint8_t bytes[CHUNK];
    ssize_t count = recv(it->fd, bytes, sizeof bytes, MSG_DONTWAIT);
    if (count < 0 && (errno == EAGAIN || errno == EWOULDBLOCK || errno == EINTR))
        return;
    if (count < 0)
        fail("recv");
    it->has_ended = count == 0;
    must(count == 0 ? lcmux_mux_end_input(&it->mux).code : lcmux_mux_deliver(&it->mux, bytes, (size_t)count).code, "read");
}

/* One round: the program acts on what came, and then the session writes, which may let its message proceed. */
static void turn(struct side *it, void (*act)(struct side *)) {
    take_notices(it);
    do {
        act(it);
        write_out(it);
    } while (take_notices(it));
}

/* Two sockets of one TCP connection on this machine. */
static void connect_both(struct side *client, struct side *server) {
    struct sockaddr_in address = {.sin_family = AF_INET, .sin_addr.s_addr = htonl(INADDR_LOOPBACK)};
    socklen_t len = sizeof address;
    int yes = 1, listener = socket(AF_INET, SOCK_STREAM | SOCK_CLOEXEC, 0);
    if (listener < 0 || bind(listener, (struct sockaddr *)&address, len) < 0 || listen(listener, 1) < 0 ||
        getsockname(listener, (struct sockaddr *)&address, &len) < 0)
        fail("listen");
    client->fd = socket(AF_INET, SOCK_STREAM | SOCK_CLOEXEC, 0);
    if (client->fd < 0 || connect(client->fd, (struct sockaddr *)&address, len) < 0)
        fail("connect");
    if ((server->fd = accept(listener, NULL, NULL)) < 0)
        fail("accept");
    setsockopt(client->fd, IPPROTO_TCP, TCP_NODELAY, &yes, sizeof yes);
    setsockopt(server->fd, IPPROTO_TCP, TCP_NODELAY, &yes, sizeof yes);
    close(listener);
}

static void begin(struct side *it) {
    lcmux_config config = {2, 16, {RING, RING, RING, RING, RING, RING, RING}};
    it->mux = LCMUX_MUX_EMPTY;
    must(lcmux_mux_new(&config, &it->mux).code, "new");
}

static bool is_over(struct side *it) {
    uint32_t code = lcmux_mux_over(&it->mux).code;
    if (code != LCMUX_OK && code != LCMUX_CLOSED_HERE)
        must(code, "over");
    return code == LCMUX_CLOSED_HERE;
}

int main(void) {
    static struct side client, server;
    struct side *sides[2] = {&client, &server};
    connect_both(&client, &server);
    begin(&client);
    begin(&server);
    for (;;) {
        struct pollfd fds[2];
        turn(&client, act_as_client);
        turn(&server, act_as_server);
        if (is_over(&client) && is_over(&server))
            break;
        for (int k = 0; k < 2; k++)
            fds[k] = (struct pollfd){sides[k]->has_ended ? -1 : sides[k]->fd,
                                     (short)(POLLIN | (sides[k]->from < sides[k]->to ? POLLOUT : 0)), 0};
        if (poll(fds, 2, -1) < 0 && errno != EINTR)
            fail("poll");
        for (int k = 0; k < 2; k++)
            if (fds[k].revents & ~POLLOUT)
                read_in(sides[k]);
    }
    printf("sent %" PRIu64 " messages, %" PRIu64 " bytes\n", client.messages, client.bytes);
    printf("echoed %" PRIu64 " messages, %" PRIu64 " bytes\n", server.messages, server.bytes);
    for (int k = 0; k < 2; k++) {
        printf("%s\n", lcmux_strerror(lcmux_mux_over(&sides[k]->mux).code));
        lcmux_mux_free(&sides[k]->mux);
        close(sides[k]->fd);
    }
    return 0;
}
