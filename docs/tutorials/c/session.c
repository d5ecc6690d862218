#include "session.h"

#include <errno.h>
#include <fcntl.h>
#include <netinet/in.h>
#include <netinet/tcp.h>
#include <poll.h>
#include <stdio.h>
#include <string.h>
#include <sys/socket.h>
#include <unistd.h>

static int failed(const char *call, uint32_t code) {
    char text[64] = "";
    lcmux_text(code, text, sizeof text);
    fprintf(stderr, "%s: %s\n", call, text);
    return -1;
}

/* A socket that is not ready, or a signal, is no failure: poll comes next. */
static int socket_failed(const char *call) {
    if (errno == EAGAIN || errno == EWOULDBLOCK || errno == EINTR)
        return 0;
    fprintf(stderr, "%s: %s\n", call, strerror(errno));
    return -1;
}

int session_made(const char *call, lcmux_answer answer) {
    if (answer.code == LCMUX_OK)
        return 1;
    if (answer.code == LCMUX_NO_GUARANTEE || answer.code == LCMUX_QUEUE_FULL)
        return 0;
    return failed(call, answer.code);
}

int session_open(struct session *it, int fd) {
    lcmux_config config = {2, 16, {RING, RING, RING, RING, RING, RING, RING}};
    int yes = 1;
    *it = (struct session){.peer = LCMUX_PEER_EMPTY, .fd = fd, .owed = RING};
    if (fcntl(fd, F_SETFL, O_NONBLOCK) < 0 || setsockopt(fd, IPPROTO_TCP, TCP_NODELAY, &yes, sizeof yes) < 0)
        return socket_failed("socket");
    return session_made("new", lcmux_peer_new(&config, &it->peer)) < 0 ? -1 : 0;
}

void session_free(struct session *it) {
    lcmux_peer_free(&it->peer);
    close(it->fd);
}

int session_take(struct session *it, uint8_t *message, size_t size, size_t *len) {
    lcmux_answer took = lcmux_peer_take(&it->peer, DATA, message, size);
    *len = 0;
    if (took.code == LCMUX_ENDED)
        it->all_received = 1;
    if (took.code == LCMUX_ENDED || took.code == LCMUX_EMPTY)
        return 0;
    if (took.code != LCMUX_OK)
        return failed("take", took.code);
    *len = took.number;
    it->owed += (uint32_t)took.number;
    return 0;
}

/* Issues credit for the whole ring at first, and then anew for what was taken. */
static int issue(struct session *it) {
    if (it->owed == 0)
        return 0;
    lcmux_answer issued = lcmux_peer_issue(&it->peer, DATA, it->owed);
    int made = issued.code == LCMUX_CHANNEL_FINISHED ? 1 : session_made("issue", issued);
    if (made == 1)
        it->owed = 0;
    return made < 0 ? -1 : 0;
}

static int wants_write(struct session *it) {
    return it->out_at < it->out_len || lcmux_peer_wants_write(&it->peer).number == 1;
}

/* What lcmux_peer_write gives counts as sent, so the rest is kept where the socket takes less. */
static int write_out(struct session *it) {
    while (wants_write(it)) {
        if (it->out_at == it->out_len) {
            it->out_len = lcmux_peer_write(&it->peer, it->out, sizeof it->out).number;
            it->out_at = 0;
        }
        /* MSG_NOSIGNAL: where the other side is gone, EPIPE instead of SIGPIPE, which would end the process. */
        ssize_t sent = send(it->fd, it->out + it->out_at, it->out_len - it->out_at, MSG_NOSIGNAL);
        if (sent < 0)
            return socket_failed("send");
        it->out_at += (size_t)sent;
    }
    return 0;
}

static int read_in(struct session *it) {
    uint8_t in[65536];
    ssize_t got = recv(it->fd, in, sizeof in, 0);
    if (got < 0)
        return socket_failed("recv");
    it->in_ended = got == 0;
    uint32_t code = got == 0 ? lcmux_peer_end(&it->peer).code : lcmux_peer_deliver(&it->peer, in, (size_t)got).code;
    return code == LCMUX_OK ? 0 : failed("recv", code);
}

int session_move(struct session *it) {
    struct pollfd ready = {.fd = it->fd};
    if (issue(it) < 0)
        return -1;
    if (!it->in_ended)
        ready.events |= POLLIN;
    if (wants_write(it))
        ready.events |= POLLOUT;
    if (ready.events == 0) {
        fprintf(stderr, "the other side ended its stream too early\n");
        return -1;
    }
    if (poll(&ready, 1, -1) < 0)
        return socket_failed("poll");
    if (!it->in_ended && (ready.revents & ~POLLOUT) && read_in(it) < 0)
        return -1;
    return write_out(it);
}

int session_close(struct session *it) {
    while (it->finished < LCMUX_CHANNELS) {
        lcmux_answer finished = lcmux_peer_finish(&it->peer, it->finished);
        int made = finished.code == LCMUX_CHANNEL_FINISHED ? 1 : session_made("finish", finished);
        if (made != 1)
            return made;
        it->finished++;
    }
    if (it->out_ended || wants_write(it))
        return 0;
    it->out_ended = 1;
    return shutdown(it->fd, SHUT_WR) < 0 ? socket_failed("shutdown") : 0;
}

int session_is_over(const struct session *it) {
    return it->out_ended && it->in_ended;
}
