/* Calls that block: two sessions, each shared by threads, over a pair of sockets. Two threads send at once, and two
 * receive.
 *
 *     cc -pthread mux_threads.c $(pkg-config --cflags --libs lcmux) -o mux_threads
 *     ./mux_threads
 *
 * One lock guards a session. A thread whose message waits sleeps on a condition of its own, and its ticket is the address
 * of what it waits by: whoever changes the session wakes the threads up that its notices name. */
#define _GNU_SOURCE
#include "lcmux.h"

#include <pthread.h>
#include <stdbool.h>
#include <stdio.h>
#include <stdlib.h>
#include <string.h>
#include <sys/socket.h>
#include <unistd.h>

enum { MESSAGES = 5000, LONGEST = 700, CHUNK = 4096, RING = 4096 };

/* A thread that sleeps until its message was sent. */
struct waiter {
    pthread_cond_t moved;
    uint32_t code; /* LCMUX_WAITS until then */
    struct waiter *next;
};

struct session {
    lcmux_mux mux;
    int fd;
    pthread_mutex_t lock;
    pthread_cond_t changed; /* there may be bytes to write, or messages to take */
    struct waiter *waiters;
};

static void must(uint32_t code, const char *what) {
    if (code == LCMUX_OK)
        return;
    fprintf(stderr, "%s: %s\n", what, lcmux_strerror(code));
    exit(1);
}

static void wake(struct session *it, uint64_t ticket, uint32_t code) {
    for (struct waiter **at = &it->waiters; *at; at = &(*at)->next)
        if ((uint64_t)(uintptr_t)*at == ticket) {
            struct waiter *found = *at;
            *at = found->next;
            found->code = code;
            pthread_cond_signal(&found->moved);
            return;
        }
}

/* Behind each change, with the lock held: wakes up the threads whose messages were sent, and all of them once the session
 * takes no message any more. */
static void after_change(struct session *it, uint32_t end) {
    lcmux_notice notice = LCMUX_NOTICE_INIT;
    while (lcmux_mux_next_notice(&it->mux, &notice).code == LCMUX_OK)
        wake(it, notice.ticket, (uint32_t)notice.outcome);
    while (end != LCMUX_OK && it->waiters)
        wake(it, (uint64_t)(uintptr_t)it->waiters, end);
    pthread_cond_broadcast(&it->changed);
}

static uint32_t send_blocking(struct session *it, uint32_t channel, const uint8_t *body, size_t len) {
    struct waiter me = {PTHREAD_COND_INITIALIZER, LCMUX_OK, NULL};
    pthread_mutex_lock(&it->lock);
    me.code = lcmux_mux_send(&it->mux, channel, (uint64_t)(uintptr_t)&me, body, len).code;
    if (me.code == LCMUX_WAITS) {
        me.next = it->waiters;
        it->waiters = &me;
    }
    after_change(it, LCMUX_OK);
    while (me.code == LCMUX_WAITS)
        pthread_cond_wait(&me.moved, &it->lock);
    pthread_mutex_unlock(&it->lock);
    return me.code;
}

/* The code is LCMUX_ENDED at the end of the channel, and that of the session's end where it ended before. */
static lcmux_answer receive_blocking(struct session *it, uint32_t channel, uint8_t *buffer, size_t len) {
    pthread_mutex_lock(&it->lock);
    lcmux_answer took, over = {LCMUX_OK, 0};
    while ((took = lcmux_mux_take(&it->mux, channel, buffer, len)).code == LCMUX_EMPTY && (over = lcmux_mux_over(&it->mux)).code == LCMUX_OK)
        pthread_cond_wait(&it->changed, &it->lock);
    after_change(it, LCMUX_OK);
    pthread_mutex_unlock(&it->lock);
    return took.code == LCMUX_EMPTY ? over : took;
}

static void close_session(struct session *it) {
    pthread_mutex_lock(&it->lock);
    lcmux_mux_close(&it->mux);
    after_change(it, LCMUX_CLOSED_HERE);
    pthread_mutex_unlock(&it->lock);
}

static void *write_all(void *of) {
    struct session *it = of;
    uint8_t bytes[CHUNK];
    size_t count;
    do {
        pthread_mutex_lock(&it->lock);
        while ((count = lcmux_mux_write(&it->mux, bytes, sizeof bytes).number) == 0 && !lcmux_mux_is_done_writing(&it->mux).number && lcmux_mux_over(&it->mux).code == LCMUX_OK)
            pthread_cond_wait(&it->changed, &it->lock);
        after_change(it, LCMUX_OK);
        pthread_mutex_unlock(&it->lock);
        for (size_t at = 0; at < count;) {
            ssize_t sent = send(it->fd, bytes + at, count - at, MSG_NOSIGNAL);
            if (sent <= 0) {
                perror("send");
                exit(1);
            }
            at += (size_t)sent;
        }
    } while (count);
    shutdown(it->fd, SHUT_WR);
    return NULL;
}

static void *read_all(void *of) {
    struct session *it = of;
    uint8_t bytes[CHUNK];
    ssize_t count;
    do {
        count = recv(it->fd, bytes, sizeof bytes, 0);
        pthread_mutex_lock(&it->lock);
        if (count < 0)
            lcmux_mux_fail(&it->mux);
        else if (count == 0)
            lcmux_mux_end_input(&it->mux);
        else
            lcmux_mux_deliver(&it->mux, bytes, (size_t)count);
        after_change(it, lcmux_mux_over(&it->mux).code);
        pthread_mutex_unlock(&it->lock);
    } while (count > 0);
    return NULL;
}

static struct session here, there;

static void *send_all(void *channel) {
    uint8_t body[LONGEST];
    for (size_t k = 0; k < MESSAGES; k++) {
        memset(body, (int)k, sizeof body);
        must(send_blocking(&here, *(uint32_t *)channel, body, 1 + k % LONGEST), "send");
    }
    return NULL;
}

static void *receive_all(void *channel) {
    uint8_t body[LONGEST];
    lcmux_answer took;
    size_t k = 0;
    for (; (took = receive_blocking(&there, *(uint32_t *)channel, body, sizeof body)).code == LCMUX_OK; k++)
        if (took.number != 1 + k % LONGEST || body[0] != (uint8_t)k || body[took.number - 1] != (uint8_t)k)
            must(LCMUX_NO_CODE, "another message arrived");
    must(took.code == LCMUX_ENDED && k == MESSAGES ? LCMUX_OK : took.code, "receive");
    return NULL;
}

static void begin(struct session *it, int fd) {
    lcmux_config config = {2, 16, {RING, RING, RING, RING, RING, RING, RING}};
    it->mux = LCMUX_MUX_EMPTY;
    it->fd = fd;
    pthread_mutex_init(&it->lock, NULL);
    pthread_cond_init(&it->changed, NULL);
    must(lcmux_mux_new(&config, &it->mux).code, "new");
}

int main(void) {
    static uint32_t channels[2] = {1, 2};
    pthread_t drivers[4], senders[2], receivers[2];
    int fds[2];
    if (socketpair(AF_UNIX, SOCK_STREAM | SOCK_CLOEXEC, 0, fds) < 0) {
        perror("socketpair");
        return 1;
    }
    begin(&here, fds[0]);
    begin(&there, fds[1]);
    for (int k = 0; k < 4; k++)
        pthread_create(&drivers[k], NULL, k % 2 ? read_all : write_all, k < 2 ? &here : &there);
    for (int k = 0; k < 2; k++) {
        pthread_create(&receivers[k], NULL, receive_all, &channels[k]);
        pthread_create(&senders[k], NULL, send_all, &channels[k]);
    }
    for (int k = 0; k < 2; k++)
        pthread_join(senders[k], NULL);
    close_session(&here);
    for (int k = 0; k < 2; k++)
        pthread_join(receivers[k], NULL);
    close_session(&there);
    for (int k = 0; k < 4; k++)
        pthread_join(drivers[k], NULL);
    printf("%d messages on each channel: %s\n", MESSAGES, lcmux_strerror(lcmux_mux_over(&there.mux).code));
    lcmux_mux_free(&here.mux);
    lcmux_mux_free(&there.mux);
    close(fds[0]);
    close(fds[1]);
    return 0;
}
