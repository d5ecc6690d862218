/* Writes frames without copying their messages, by lcmux_peer_next and writev, over a socket that does not block:
 *
 *     cc writev.c $(pkg-config --cflags --libs lcmux) -o writev
 *
 * lcmux_peer_next borrows a frame as a whole each time: the peer does not remember that a part of it was written. So the
 * program does, in `written`, until the frame is complete and lcmux_peer_sent drops it. */
#define _GNU_SOURCE
#include "lcmux.h"

#include <errno.h>
#include <fcntl.h>
#include <poll.h>
#include <signal.h>
#include <stdbool.h>
#include <stdint.h>
#include <stdio.h>
#include <stdlib.h>
#include <string.h>
#include <sys/socket.h>
#include <sys/uio.h>
#include <unistd.h>

enum { DATA = 1, LENGTH = 1048576, MESSAGES = 3, RING = (MESSAGES + 1) * LENGTH };

struct writer {
    lcmux_peer *peer;
    int fd;
    uint8_t preface[4]; /* the bytes that belong to no frame: the preface of version 2 */
    size_t preface_len;
    size_t written; /* how many bytes of the preface or of the next frame the socket has accepted */
    int parts;      /* how many calls of writev the current frame took so far */
    int cut;        /* how many frames took more than one */
};

/* Writes what is left of two pieces behind the bytes that the socket has accepted. */
static ssize_t write_rest(int fd, const lcmux_piece *pieces, size_t written) {
    size_t head = written < pieces[0].len ? written : pieces[0].len, body = written - head;
    struct iovec rest[2] = {{(void *)(pieces[0].bytes + head), pieces[0].len - head},
                            {(void *)(pieces[1].bytes + body), pieces[1].len - body}};
    return writev(fd, rest, 2);
}

/* Writes more of these pieces: 1 once all of it is written, 0 if the socket accepts no more now, -1 on failure. */
static int write_more(struct writer *it, const lcmux_piece *pieces) {
    size_t whole = pieces[0].len + pieces[1].len;
    while (it->written < whole) {
        ssize_t count = write_rest(it->fd, pieces, it->written);
        if (count < 0 && errno == EINTR)
            continue;
        if (count < 0)
            return errno == EAGAIN || errno == EWOULDBLOCK ? 0 : -1;
        it->written += (size_t)count;
        it->parts++;
    }
    it->cut += it->preface_len == 0 && it->parts > 1;
    it->written = 0;
    it->parts = 0;
    return 1;
}

/* The next frame, or the bytes that lcmux_peer_write has to return first. False if nothing is pending. */
static bool next_of(struct writer *it, lcmux_next *next, lcmux_piece *pieces) {
    if (it->preface_len == 0 && lcmux_peer_next(it->peer, next).code == LCMUX_EMPTY)
        it->preface_len = lcmux_peer_write(it->peer, it->preface, sizeof it->preface).number;
    if (it->preface_len > 0) {
        pieces[0] = (lcmux_piece){it->preface, it->preface_len};
        pieces[1] = (lcmux_piece){it->preface, 0};
        return true;
    }
    if (lcmux_peer_next(it->peer, next).code != LCMUX_OK)
        return false;
    pieces[0] = (lcmux_piece){next->header, next->header_len};
    pieces[1] = next->message;
    return true;
}

/* Writes all that is pending, or as much as the socket accepts: to be called again once it is writable. Until a frame is
 * complete, no lcmux_peer_write: it would begin with the whole frame again. */
static int write_frames(struct writer *it) {
    lcmux_next next;
    lcmux_piece pieces[2];
    while (next_of(it, &next, pieces)) {
        int done = write_more(it, pieces);
        if (done != 1)
            return done;
        if (it->preface_len > 0)
            it->preface_len = 0;
        else
            lcmux_peer_sent(it->peer);
    }
    return 1;
}

static void check(const char *what, uint32_t code) {
    if (code != LCMUX_OK) {
        fprintf(stderr, "%s: %s\n", what, lcmux_strerror(code));
        exit(1);
    }
}

/* Reads what has arrived, and delivers it. */
static void read_in(lcmux_peer *peer, int fd) {
    static uint8_t bytes[65536];
    ssize_t count = read(fd, bytes, sizeof bytes);
    if (count > 0)
        check("deliver", lcmux_peer_deliver(peer, bytes, (size_t)count).code);
    else if (count == 0 || errno != EAGAIN)
        exit(1);
}

static uint8_t byte_of(int message, size_t at) { return (uint8_t)((size_t)message + at + at / 256); }

static void enqueue(lcmux_peer *peer, int message) {
    uint8_t *bytes = malloc(LENGTH);
    if (bytes == NULL)
        exit(1);
    for (size_t at = 0; at < LENGTH; at++)
        bytes[at] = byte_of(message, at);
    check("send", lcmux_peer_send(peer, DATA, bytes, LENGTH).code);
    free(bytes);
}

/* Compares the messages that have arrived. */
static int take(lcmux_peer *peer, int taken) {
    lcmux_front front;
    while (lcmux_peer_front(peer, DATA, &front).code == LCMUX_OK) {
        for (size_t at = 0; at < LENGTH; at++)
            if (front.first.bytes[at] != byte_of(taken, at))
                exit(1);
        if (lcmux_peer_pop(peer, DATA).number != LENGTH)
            exit(1);
        taken++;
    }
    return taken;
}

/* Moves all messages from one peer to the other. */
static void move(struct writer *it, lcmux_peer *receiver, int fd) {
    int done = 0;
    for (int taken = 0; taken < MESSAGES; taken = take(receiver, taken)) {
        if (done != 1 && (done = write_frames(it)) < 0)
            exit(1);
        struct pollfd fds[2] = {{it->fd, done ? 0 : POLLOUT, 0}, {fd, POLLIN, 0}};
        if (poll(fds, 2, -1) < 0 || (fds[0].revents & POLLERR))
            exit(1);
        if (fds[1].revents)
            read_in(receiver, fd);
    }
}

int main(void) {
    lcmux_config config = {2, 16, {1, RING, 1, 1, 1, 1, 1}};
    lcmux_peer sender = LCMUX_PEER_EMPTY, receiver = LCMUX_PEER_EMPTY;
    uint8_t issue[16];
    int wire[2];
    signal(SIGPIPE, SIG_IGN); /* writev has no MSG_NOSIGNAL: a reader that is gone is an EPIPE */
    if (socketpair(AF_UNIX, SOCK_STREAM | SOCK_NONBLOCK, 0, wire) != 0)
        return 1;
    check("new", lcmux_peer_new(&config, &sender).code);
    check("new", lcmux_peer_new(&config, &receiver).code);
    check("issue", lcmux_peer_issue(&receiver, DATA, RING).code);
    check("deliver", lcmux_peer_deliver(&sender, issue, lcmux_peer_write(&receiver, issue, sizeof issue).number).code);
    for (int k = 0; k < MESSAGES; k++)
        enqueue(&sender, k);
    struct writer it = {.peer = &sender, .fd = wire[0]};
    move(&it, &receiver, wire[1]);
    printf("took %d messages, of which %d were written in parts\n", MESSAGES, it.cut);
    close(wire[1]);
    enqueue(&sender, MESSAGES);
    printf("the reader is gone: %s\n", write_frames(&it) < 0 ? strerror(errno) : "no error");
    lcmux_peer_free(&sender);
    lcmux_peer_free(&receiver);
    close(wire[0]);
    return 0;
}
