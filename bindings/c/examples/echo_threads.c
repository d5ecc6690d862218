/* A client of echo.c on two threads, over a socket that blocks: one thread sends messages, and the other receives them
 * again. The calls on a peer run one at a time, so a lock is around each of them, and around no call that waits.
 *
 *     cc -pthread echo_threads.c $(pkg-config --cflags --libs lcmux) -o echo_threads
 *     ./echo_threads 7000 1000 500 30000
 *
 * It connects to that port of 127.0.0.1 and sends 1,000 messages of 500 bytes. It gives up where the server accepts or
 * sends no byte for 30,000 ms. */
#define _GNU_SOURCE
#include "lcmux.h"

#include <errno.h>
#include <inttypes.h>
#include <netinet/in.h>
#include <netinet/tcp.h>
#include <pthread.h>
#include <stdbool.h>
#include <stdio.h>
#include <stdlib.h>
#include <string.h>
#include <sys/socket.h>
#include <sys/time.h>
#include <unistd.h>

enum { DATA = 1, RING = 65536, SLOTS = 16, CHUNK = 65536 };

struct session {
    int fd;
    uint64_t count; /* how many messages are sent */
    size_t len;     /* and their length */

    pthread_mutex_t lock; /* around all below */
    pthread_cond_t changed;
    lcmux_peer peer;
    uint64_t sent, received;
    uint32_t owed; /* free bytes of the ring for which no guarantees are issued yet */
    bool is_done;  /* all messages came back, and the server has finished the channel */
    const char *failure;
};

/* Keeps the first reason, wakes the other thread, and ends its call of the socket. */
static bool fail(struct session *it, const char *failure) {
    if (it->failure == NULL)
        it->failure = failure;
    pthread_cond_signal(&it->changed);
    shutdown(it->fd, SHUT_RDWR);
    return false;
}

/* Whether a refused call is made again once the other thread has changed something. */
static bool is_for_later(struct session *it, uint32_t code) {
    return code == LCMUX_NO_GUARANTEE || code == LCMUX_QUEUE_FULL || fail(it, lcmux_strerror(code));
}

/* Message k has the bytes k, k + 1 and so on. */
static void make_message(uint8_t *message, size_t len, uint64_t k) {
    for (size_t at = 0; at < len; at++)
        message[at] = (uint8_t)(k + at);
}

/* Enqueues what may be sent now: messages, and behind the last one the end of the channel. The other channels are
 * finished once all messages came back. */
static bool enqueue(struct session *it, uint8_t *message) {
    while (it->sent < it->count) {
        make_message(message, it->len, it->sent);
        uint32_t code = lcmux_peer_send(&it->peer, DATA, message, it->len).code;
        if (code != LCMUX_OK)
            return is_for_later(it, code);
        it->sent++;
    }
    for (uint32_t channel = 0; channel < LCMUX_CHANNELS; channel++) {
        uint32_t code = channel == DATA || it->is_done ? lcmux_peer_finish(&it->peer, channel).code : LCMUX_OK;
        if (code != LCMUX_OK && code != LCMUX_CHANNEL_FINISHED)
            return is_for_later(it, code);
    }
    return true;
}

/* Issues the ring at first, and then what was taken. */
static bool issue(struct session *it) {
    uint32_t code = it->owed == 0 ? LCMUX_OK : lcmux_peer_issue(&it->peer, DATA, it->owed).code;
    if (code != LCMUX_OK && code != LCMUX_CHANNEL_FINISHED)
        return is_for_later(it, code);
    it->owed = 0;
    return true;
}

static bool send_all(struct session *it, const uint8_t *bytes, size_t len) {
    while (len > 0) {
        /* MSG_NOSIGNAL: a server that is gone is an EPIPE, and no SIGPIPE, which would end the program. */
        ssize_t sent = send(it->fd, bytes, len, MSG_NOSIGNAL);
        if (sent < 0 && errno == EINTR)
            continue;
        if (sent < 0)
            return false;
        bytes += sent;
        len -= (size_t)sent;
    }
    return true;
}

/* The bytes that go out next. Waits until there are any: 0 once all is written, or the session has failed. */
static size_t next_bytes(struct session *it, uint8_t *message, uint8_t *bytes) {
    size_t len = 0;
    pthread_mutex_lock(&it->lock);
    while (it->failure == NULL) {
        bool is_last = it->is_done; /* the finishes below are the last frames */
        if (!issue(it) || !enqueue(it, message))
            break;
        len = lcmux_peer_write(&it->peer, bytes, CHUNK).number;
        if (len > 0 || is_last)
            break;
        pthread_cond_wait(&it->changed, &it->lock);
    }
    pthread_mutex_unlock(&it->lock);
    return len;
}

/* The sending thread: writes without the lock, so that the other thread goes on meanwhile. */
static void *send_messages(void *given) {
    struct session *it = given;
    uint8_t *message = malloc(it->len), *bytes = malloc(CHUNK);
    size_t len;
    bool is_sent = message != NULL && bytes != NULL;
    errno = is_sent ? 0 : ENOMEM;
    while (is_sent && (len = next_bytes(it, message, bytes)) > 0)
        is_sent = send_all(it, bytes, len);
    int reason = errno;
    pthread_mutex_lock(&it->lock);
    if (!is_sent)
        fail(it, reason == EAGAIN ? "the server reads too slowly" : strerror(reason));
    pthread_mutex_unlock(&it->lock);
    shutdown(it->fd, SHUT_WR); /* this side's half of the end */
    free(message);
    free(bytes);
    return NULL;
}

/* Takes all messages that have arrived, and compares them with those that were sent. */
static bool take(struct session *it, uint8_t *wanted) {
    lcmux_front message;
    lcmux_answer front;
    while ((front = lcmux_peer_front(&it->peer, DATA, &message)).code == LCMUX_OK) {
        make_message(wanted, it->len, it->received);
        if (front.number != it->len || memcmp(message.first.bytes, wanted, it->len) != 0)
            return fail(it, "another message came back");
        it->received++;
        it->owed += (uint32_t)lcmux_peer_pop(&it->peer, DATA).number;
    }
    if (front.code == LCMUX_ENDED && it->received < it->count)
        return fail(it, "the server finished the channel too early");
    it->is_done = front.code == LCMUX_ENDED;
    pthread_cond_signal(&it->changed); /* guarantees or room may have come, or the end */
    return true;
}

/* Handles what one call of recv returned. False at the end of the stream, or after a failure. */
static bool arrived(struct session *it, const uint8_t *bytes, ssize_t count, uint8_t *wanted) {
    if (count < 0)
        return fail(it, errno == EAGAIN ? "the server sends too slowly" : strerror(errno));
    if (count == 0)
        return it->is_done ? false : fail(it, "the server has cut the session off");
    uint32_t code = lcmux_peer_deliver(&it->peer, bytes, (size_t)count).code;
    return code == LCMUX_OK ? take(it, wanted) : fail(it, lcmux_strerror(code));
}

/* The receiving thread: reads without the lock, until the server has ended its stream. */
static void receive_messages(struct session *it) {
    static uint8_t bytes[CHUNK];
    uint8_t *wanted = malloc(it->len);
    bool goes_on = true;
    while (goes_on) {
        ssize_t count = wanted == NULL ? -1 : recv(it->fd, bytes, sizeof bytes, 0);
        if (wanted != NULL && count < 0 && errno == EINTR)
            continue;
        pthread_mutex_lock(&it->lock);
        goes_on = arrived(it, bytes, count, wanted);
        pthread_mutex_unlock(&it->lock);
    }
    free(wanted);
}

static int connect_to(uint16_t port, long patience) {
    struct sockaddr_in address = {.sin_family = AF_INET, .sin_addr.s_addr = htonl(INADDR_LOOPBACK), .sin_port = htons(port)};
    struct timeval limit = {patience / 1000, patience % 1000 * 1000};
    int yes = 1, fd = socket(AF_INET, SOCK_STREAM | SOCK_CLOEXEC, 0);
    if (fd < 0 || setsockopt(fd, SOL_SOCKET, SO_RCVTIMEO, &limit, sizeof limit) < 0 ||
        setsockopt(fd, SOL_SOCKET, SO_SNDTIMEO, &limit, sizeof limit) < 0 ||
        setsockopt(fd, IPPROTO_TCP, TCP_NODELAY, &yes, sizeof yes) < 0 || connect(fd, (struct sockaddr *)&address, sizeof address) < 0) {
        perror("connect");
        exit(1);
    }
    return fd;
}

static void run(struct session *it) {
    pthread_t sender;
    if (pthread_create(&sender, NULL, send_messages, it) != 0) {
        it->failure = "no thread";
        return;
    }
    receive_messages(it);
    pthread_join(sender, NULL);
}

int main(int argc, char **argv) {
    static struct session it = {
        .lock = PTHREAD_MUTEX_INITIALIZER, .changed = PTHREAD_COND_INITIALIZER, .peer = LCMUX_PEER_EMPTY, .owed = RING};
    lcmux_config config = {2, SLOTS, {RING, RING, RING, RING, RING, RING, RING}};
    if (argc != 5 || atol(argv[3]) < 1 || atol(argv[4]) < 1) {
        fprintf(stderr, "usage: echo_threads PORT COUNT LENGTH PATIENCE\n");
        return 2;
    }
    it.count = strtoull(argv[2], NULL, 10);
    it.len = (size_t)atol(argv[3]);
    uint32_t code = lcmux_peer_new(&config, &it.peer).code;
    if (code != LCMUX_OK) {
        fprintf(stderr, "new: %s\n", lcmux_strerror(code));
        return 1;
    }
    it.fd = connect_to((uint16_t)atoi(argv[1]), atol(argv[4]));
    run(&it);
    lcmux_peer_free(&it.peer);
    close(it.fd);
    if (it.failure != NULL)
        fprintf(stderr, "%s\n", it.failure);
    else
        printf("%" PRIu64 " messages came back\n", it.received);
    return it.failure == NULL ? 0 : 1;
}
