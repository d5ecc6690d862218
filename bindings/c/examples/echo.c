/* An echo server for many clients on one thread: sockets that do not block, and one poll for all of them.
 *
 *     cc echo.c $(pkg-config --cflags --libs lcmux) -o echo
 *     ./echo 7000 30000
 *
 * It listens on that port of 127.0.0.1, or on a free one for 0, and sends each message of the channel DATA back. A
 * client that moves no byte for 30,000 ms, in either direction, is cut off. More clients than CLIENTS wait in the
 * backlog of the listener. SIGINT and SIGTERM end the server. */
#define _GNU_SOURCE
#include "lcmux.h"

#include <errno.h>
#include <fcntl.h>
#include <inttypes.h>
#include <limits.h>
#include <netinet/in.h>
#include <netinet/tcp.h>
#include <poll.h>
#include <signal.h>
#include <stdbool.h>
#include <stdio.h>
#include <stdlib.h>
#include <string.h>
#include <sys/socket.h>
#include <time.h>
#include <unistd.h>

enum { DATA = 1, RING = 65536, SLOTS = 16, CLIENTS = 64 };

/* One session. A free place has no socket: fd is -1. */
struct client {
    lcmux_peer peer;
    int fd;
    uint32_t owed;      /* free bytes of the ring for which no guarantees are issued yet */
    bool has_more;      /* a call was refused because the queue was full: there is more to do once it is written */
    uint32_t finished;  /* the channels that this side has finished, from 0 on */
    bool is_shut;       /* this side has ended its direction of the socket */
    bool has_ended;     /* the client has ended its direction */
    uint8_t out[RING];  /* bytes that count as sent, and that the socket did not accept yet */
    size_t from, to;
    int64_t moved;      /* when a byte last moved */
    uint64_t messages, bytes;
    const char *failure; /* why the session is over, NULL while it is not */
};

enum { REST = 100 };

static struct client clients[CLIENTS];
static int64_t rests_until; /* until when no client is accepted, after want of a descriptor or of memory */
static volatile sig_atomic_t is_stopped;

static void stop(int signal) {
    (void)signal;
    is_stopped = 1;
}

static int64_t now(void) {
    struct timespec time;
    clock_gettime(CLOCK_MONOTONIC, &time);
    return (int64_t)time.tv_sec * 1000 + time.tv_nsec / 1000000;
}

static bool fail(struct client *it, const char *failure) {
    it->failure = failure;
    return false;
}

/* A socket that is not ready, and a signal, are no failures: poll comes next. */
static bool is_transient(struct client *it) {
    return errno == EAGAIN || errno == EWOULDBLOCK || errno == EINTR || fail(it, strerror(errno));
}

/* Whether a refused call is made again later: more guarantees may arrive, or the queue is written. */
static bool is_for_later(struct client *it, uint32_t code) {
    it->has_more |= code == LCMUX_QUEUE_FULL;
    return code == LCMUX_NO_GUARANTEE || code == LCMUX_QUEUE_FULL || fail(it, lcmux_strerror(code));
}

/* Issues what the client may send anew. A channel that the client has finished takes no guarantees. */
static bool issue(struct client *it) {
    uint32_t code = it->owed == 0 ? LCMUX_OK : lcmux_peer_issue(&it->peer, DATA, it->owed).code;
    if (code != LCMUX_OK && code != LCMUX_CHANNEL_FINISHED)
        return is_for_later(it, code);
    it->owed = 0;
    return true;
}

/* Finishes all channels, also the unused ones: a session of the other libraries would take an unfinished one for a
 * cut. */
static bool finish(struct client *it) {
    for (; it->finished < LCMUX_CHANNELS; it->finished++) {
        uint32_t code = lcmux_peer_finish(&it->peer, it->finished).code;
        if (code != LCMUX_OK)
            return is_for_later(it, code);
    }
    return true;
}

/* Sends messages back from where they are in the ring. One that cannot be sent stays there, so a client that issues no
 * guarantees soon holds none itself: this is the backpressure. */
static bool echo(struct client *it) {
    lcmux_front message;
    lcmux_answer front;
    while ((front = lcmux_peer_front(&it->peer, DATA, &message)).code == LCMUX_OK) {
        uint32_t code = lcmux_peer_send(&it->peer, DATA, message.first.bytes, front.number).code;
        if (code != LCMUX_OK)
            return is_for_later(it, code) && issue(it);
        it->owed += (uint32_t)lcmux_peer_pop(&it->peer, DATA).number;
        it->messages++;
        it->bytes += front.number;
    }
    return issue(it) && (front.code != LCMUX_ENDED || finish(it));
}

static bool wants_write(const struct client *it) {
    return it->from < it->to || lcmux_peer_wants_write(&it->peer).number == 1;
}

/* Writes until nothing is pending, or the socket accepts no more. */
static bool write_out(struct client *it) {
    while (wants_write(it)) {
        if (it->from == it->to) {
            it->from = 0;
            it->to = lcmux_peer_write(&it->peer, it->out, sizeof it->out).number;
        }
        /* MSG_NOSIGNAL: a client that is gone is an EPIPE, and no SIGPIPE, which would end the server. */
        ssize_t sent = send(it->fd, it->out + it->from, it->to - it->from, MSG_NOSIGNAL);
        if (sent < 0)
            return is_transient(it);
        it->from += (size_t)sent;
        it->moved = now();
    }
    return true;
}

/* Reads once, so that no client delays the others. */
static bool read_in(struct client *it) {
    uint8_t bytes[RING];
    ssize_t count = recv(it->fd, bytes, sizeof bytes, 0);
    if (count < 0)
        return is_transient(it);
    it->moved = now();
    it->has_ended = count == 0;
    uint32_t code = count == 0 ? lcmux_peer_end(&it->peer).code : lcmux_peer_deliver(&it->peer, bytes, (size_t)count).code;
    return code == LCMUX_OK || fail(it, lcmux_strerror(code));
}

/* Ends this side's direction once all is written. The client may go on reading, and ends its own direction. */
static bool half_close(struct client *it) {
    if (it->finished == LCMUX_CHANNELS && !it->is_shut && !wants_write(it)) {
        if (shutdown(it->fd, SHUT_WR) < 0)
            return fail(it, strerror(errno));
        it->is_shut = true;
    }
    if (it->has_ended && !it->has_more && it->finished < LCMUX_CHANNELS)
        return fail(it, "cut off by the client");
    return !(it->has_ended && it->is_shut) || fail(it, "closed");
}

/* One round of a client, after poll: reads if it may, then answers and writes. False once the session is over. A client
 * is too slow if its last byte moved at `since` or before. This is counted from before poll, so that a server which stood
 * still first reads what has come. */
static bool turn(struct client *it, short events, int64_t since) {
    if ((events & ~POLLOUT) && !it->has_ended && !read_in(it))
        return false;
    it->has_more = false;
    if (!echo(it) || !write_out(it) || !half_close(it))
        return false;
    return it->moved > since || fail(it, "too slow");
}

static void end(struct client *it) {
    printf("echoed %" PRIu64 " messages, %" PRIu64 " bytes: %s\n", it->messages, it->bytes, it->failure);
    lcmux_peer_free(&it->peer);
    close(it->fd);
    it->fd = -1;
}

static struct client *free_place(void) {
    for (int k = 0; k < CLIENTS; k++)
        if (clients[k].fd < 0)
            return &clients[k];
    return NULL;
}

/* Accepts one client. A client that is gone by now, or want of a descriptor or of memory, is no reason to stop. In want
 * the client stays in the backlog, where poll would find it at once again: so the listener rests for a while. */
static void welcome(int listener) {
    struct client *it = free_place();
    lcmux_config config = {2, SLOTS, {RING, RING, RING, RING, RING, RING, RING}};
    int yes = 1, buffer = RING, fd = accept4(listener, NULL, NULL, SOCK_NONBLOCK | SOCK_CLOEXEC);
    if (fd < 0) {
        if (errno == EMFILE || errno == ENFILE || errno == ENOBUFS || errno == ENOMEM)
            rests_until = now() + REST;
        return;
    }
    setsockopt(fd, IPPROTO_TCP, TCP_NODELAY, &yes, sizeof yes);
    /* What a client that does not read occupies in the kernel. */
    setsockopt(fd, SOL_SOCKET, SO_SNDBUF, &buffer, sizeof buffer);
    *it = (struct client){.peer = LCMUX_PEER_EMPTY, .fd = fd, .owed = RING, .moved = now()};
    uint32_t code = lcmux_peer_new(&config, &it->peer).code;
    if (code != LCMUX_OK) {
        it->failure = lcmux_strerror(code);
        end(it);
    }
}

/* What poll waits for: of a client bytes to read until it has ended, and space for those that are pending. The listener
 * is last, and left alone while no place is free, and while it rests. Returns how long poll waits at most. */
static int64_t watched(struct pollfd *fds, int listener, int64_t patience) {
    int64_t wait = -1;
    for (int k = 0; k < CLIENTS; k++) {
        struct client *it = &clients[k];
        fds[k] = (struct pollfd){.fd = it->fd};
        if (it->fd < 0)
            continue;
        fds[k].events = (short)((it->has_ended ? 0 : POLLIN) | (wants_write(it) ? POLLOUT : 0));
        int64_t left = it->has_more && !wants_write(it) ? 0 : it->moved + patience - now();
        left = left < 0 ? 0 : left;
        wait = wait < 0 || left < wait ? left : wait;
    }
    int64_t rest = rests_until - now();
    fds[CLIENTS] = (struct pollfd){.fd = free_place() && rest <= 0 ? listener : -1, .events = POLLIN};
    return rest > 0 && (wait < 0 || rest < wait) ? rest : wait;
}

/* Serves until a signal arrives, which is blocked but while ppoll waits: so none is missed between two waits. */
static void serve(int listener, int64_t patience, const sigset_t *while_waiting) {
    struct pollfd fds[CLIENTS + 1];
    while (!is_stopped) {
        int64_t wait = watched(fds, listener, patience), since = now() - patience;
        struct timespec limit = {wait / 1000, wait % 1000 * 1000000};
        if (ppoll(fds, CLIENTS + 1, wait < 0 ? NULL : &limit, while_waiting) < 0) {
            if (errno == EINTR)
                continue; /* a signal */
            perror("poll");
            exit(1);
        }
        for (int k = 0; k < CLIENTS; k++)
            if (clients[k].fd >= 0 && !turn(&clients[k], fds[k].revents, since))
                end(&clients[k]);
        if (fds[CLIENTS].revents)
            welcome(listener);
    }
}

static int listen_on(uint16_t port) {
    struct sockaddr_in address = {.sin_family = AF_INET, .sin_addr.s_addr = htonl(INADDR_LOOPBACK), .sin_port = htons(port)};
    socklen_t len = sizeof address;
    int yes = 1, fd = socket(AF_INET, SOCK_STREAM | SOCK_NONBLOCK | SOCK_CLOEXEC, 0);
    if (fd < 0 || setsockopt(fd, SOL_SOCKET, SO_REUSEADDR, &yes, sizeof yes) < 0 ||
        bind(fd, (struct sockaddr *)&address, sizeof address) < 0 || listen(fd, SOMAXCONN) < 0 ||
        getsockname(fd, (struct sockaddr *)&address, &len) < 0) {
        perror("listen");
        exit(1);
    }
    printf("listening on 127.0.0.1:%d\n", ntohs(address.sin_port));
    return fd;
}

int main(int argc, char **argv) {
    sigset_t blocked, before;
    if (argc != 3 || atoi(argv[1]) < 0 || atoi(argv[1]) > 65535 || atol(argv[2]) < 1 || atol(argv[2]) > INT_MAX) {
        fprintf(stderr, "usage: echo PORT PATIENCE\n");
        return 2;
    }
    setvbuf(stdout, NULL, _IOLBF, 0);
    sigemptyset(&blocked);
    sigaddset(&blocked, SIGINT);
    sigaddset(&blocked, SIGTERM);
    sigprocmask(SIG_BLOCK, &blocked, &before);
    signal(SIGINT, stop);
    signal(SIGTERM, stop);
    for (int k = 0; k < CLIENTS; k++)
        clients[k].fd = -1;
    int listener = listen_on((uint16_t)atoi(argv[1]));
    serve(listener, atol(argv[2]), &before);
    for (int k = 0; k < CLIENTS; k++)
        if (clients[k].fd >= 0) {
            clients[k].failure = "stopped";
            end(&clients[k]);
        }
    close(listener);
    return 0;
}
