/* What two peers pass over one TCP connection on the loopback, each side in one thread that polls, through rings of
 * 256 KiB and 64 slots; each message is compared with the one that is due.
 *
 *   beside swap LENGTH COUNT   on each channel and way COUNT messages of LENGTH bytes, of 4 to 16 where that is 0:
 *                              messages a second, all lanes together, and the processor time of each
 *   beside quiet COUNT         one way on one channel COUNT messages of 16 bytes, one each millisecond, while six carry
 *                              messages of 60 KiB: within which time half of them came, 99 in a hundred, and all
 */
#define _GNU_SOURCE
#include "lcmux.h"

#include <arpa/inet.h>
#include <errno.h>
#include <fcntl.h>
#include <netinet/tcp.h>
#include <poll.h>
#include <pthread.h>
#include <stdbool.h>
#include <stdio.h>
#include <stdlib.h>
#include <string.h>
#include <sys/resource.h>
#include <sys/socket.h>
#include <time.h>
#include <unistd.h>

enum { RING = 262144, SLOTS = 64, LONGEST = 65535 };

/* The size of a read, of a write, and of a channel's burst. */
enum { PIECE = 65536, BURST = 4096 };

/* Of the quiet load: its channel, the sizes of its messages and of bulk messages, and the duration of bulk before its
 * first message. */
enum { QUIET = 0, STAMP = 16, BULK = 61440 };
static const uint64_t PACE = 1000000, BEFORE = 200000000;

/* The time after which a side takes the other for dead, in nanoseconds. */
static const uint64_t PATIENCE = 10000000000;

typedef struct load {
    bool is_quiet;
    size_t length;
    uint32_t count;
} load;

typedef struct lane {
    uint32_t sent, taken, owed; /* messages, messages, and bytes that were taken and not issued again */
    uint8_t message[LONGEST], due[LONGEST];
} lane;

typedef struct side {
    const load *load;
    lcmux_peer peer;
    int fd;
    bool is_sender, is_idle, has_ended; /* of the quiet load; nothing to send now; the peer's stream has ended */
    unsigned turn;                      /* the channel that sends next */
    size_t written, have;               /* of out */
    uint64_t due, began, bulk;          /* of the quiet load: times of its next and first message, bytes since */
    double *times;                      /* how long each took, in microseconds */
    lane lanes[LCMUX_CHANNELS];
    uint8_t out[PIECE], in[PIECE];
} side;

static void check(bool holds, const char *what) {
    if (!holds) {
        fprintf(stderr, "beside: %s\n", what);
        _exit(1); /* the other side may exit at the same time */
    }
}

static uint64_t nanoseconds(void) {
    struct timespec now;
    clock_gettime(CLOCK_MONOTONIC, &now);
    return (uint64_t)now.tv_sec * 1000000000 + (uint64_t)now.tv_nsec;
}

/* Writes a message, which is its number and then the channel's in each byte, and returns its length. For bulk only
 * the number is written. */
static size_t write_message(const load *load, uint32_t number, uint8_t channel, uint8_t *message) {
    size_t len = load->length ? load->length : 4 + number % 13;
    uint32_t first = htonl(number);
    memcpy(message, &first, sizeof first);
    if (!load->is_quiet || number == 0)
        memset(message + sizeof first, channel, len - sizeof first);
    return len;
}

static bool is_stamp(const side *s, unsigned channel) {
    return s->load->is_quiet && channel == QUIET;
}

/* Returns whether a message is to be sent on a channel now. */
static bool is_due(const side *s, unsigned channel) {
    if (!s->load->is_quiet)
        return s->lanes[channel].sent < s->load->count;
    if (!s->is_sender || s->lanes[QUIET].sent == s->load->count)
        return false;
    return channel != QUIET || nanoseconds() >= s->due;
}

static size_t next_message(side *s, unsigned channel) {
    lane *l = &s->lanes[channel];
    if (!is_stamp(s, channel))
        return write_message(s->load, l->sent, (uint8_t)channel, l->message);
    uint64_t stamp[STAMP / sizeof(uint64_t)] = {nanoseconds()};
    memcpy(l->message, stamp, sizeof stamp);
    return sizeof stamp;
}

/* Sends a channel's burst, or the part of it that can be sent now. Returns whether it sent anything. */
static bool send_burst(side *s, unsigned channel) {
    lane *l = &s->lanes[channel];
    size_t sent = 0;
    while (sent < BURST && is_due(s, channel)) {
        size_t len = next_message(s, channel);
        uint32_t code = lcmux_peer_send(&s->peer, channel, l->message, len).code;
        if (code == LCMUX_NO_GUARANTEE || code == LCMUX_QUEUE_FULL)
            break;
        check(code == LCMUX_OK, "send");
        l->sent++;
        sent += len;
        if (is_stamp(s, channel))
            s->due += PACE;
    }
    return sent > 0;
}

/* Sends on one channel after the other until there are enough bytes for a write, or no message can be sent. A timed
 * message precedes all others. */
static void fill(side *s) {
    unsigned idle = 0;
    for (; idle < LCMUX_CHANNELS && s->have < PIECE; s->turn = (s->turn + 1) % LCMUX_CHANNELS) {
        bool was_due = is_stamp(s, QUIET) && send_burst(s, QUIET);
        idle = send_burst(s, s->turn) || was_due ? 0 : idle + 1;
        s->have += lcmux_peer_write(&s->peer, s->out + s->have, PIECE - s->have).number;
    }
    s->is_idle = idle == LCMUX_CHANNELS;
}

static void flush(side *s) {
    while (s->written < s->have) {
        ssize_t n = write(s->fd, s->out + s->written, s->have - s->written);
        if (n < 0 && errno == EAGAIN)
            return;
        check(n > 0, "write");
        s->written += (size_t)n;
    }
    s->written = s->have = 0;
}

static void compare(side *s, unsigned channel, const lcmux_front *front) {
    lane *l = &s->lanes[channel];
    size_t len = front->first.len + front->rest.len;
    if (is_stamp(s, channel)) {
        uint64_t now = nanoseconds(), stamp;
        check(len == STAMP && front->rest.len == 0 && l->taken < s->load->count, "stamp");
        memcpy(&stamp, front->first.bytes, sizeof stamp);
        if (l->taken == 0)
            s->began = now, s->bulk = 0;
        s->times[l->taken] = (double)(now - stamp) / 1e3;
        return;
    }
    check(len == write_message(s->load, l->taken, (uint8_t)channel, l->due) &&
              memcmp(front->first.bytes, l->due, front->first.len) == 0 &&
              memcmp(front->rest.bytes, l->due + front->first.len, front->rest.len) == 0,
          "another message than the one due");
    s->bulk += len;
}

/* Issues the bytes of taken messages again, or keeps them if the queue is full. */
static void give_back(side *s, unsigned channel) {
    lane *l = &s->lanes[channel];
    if (l->owed > 0 && lcmux_peer_issue(&s->peer, channel, l->owed).code == LCMUX_OK)
        l->owed = 0;
}

/* Takes all available messages of a channel. */
static void take(side *s, unsigned channel) {
    lane *l = &s->lanes[channel];
    lcmux_front front;
    while (lcmux_peer_front(&s->peer, channel, &front).code == LCMUX_OK) {
        compare(s, channel, &front);
        l->owed += (uint32_t)lcmux_peer_pop(&s->peer, channel).number;
        l->taken++;
        if (l->owed >= RING / 2)
            give_back(s, channel);
    }
    give_back(s, channel);
}

/* Reads once. Returns whether any bytes were available. */
static bool read_in(side *s) {
    if (s->has_ended)
        return false;
    ssize_t n = read(s->fd, s->in, PIECE);
    if (n < 0 && errno == EAGAIN)
        return false;
    check(n >= 0, "read");
    s->has_ended = n == 0;
    check(lcmux_peer_deliver(&s->peer, s->in, (size_t)n).code == LCMUX_OK, "deliver");
    return true;
}

static void wait_for(side *s) {
    bool waits_to_write = s->written < s->have || !s->is_idle;
    struct pollfd it = {s->fd, (short)((s->has_ended ? 0 : POLLIN) | (waits_to_write ? POLLOUT : 0)), 0};
    bool is_timed = s->is_sender && s->lanes[QUIET].sent < s->load->count;
    uint64_t now = nanoseconds(), until = is_timed ? s->due : now + PATIENCE;
    uint64_t left = until > now ? until - now : 0;
    struct timespec timeout = {(time_t)(left / 1000000000), (long)(left % 1000000000)};
    check(ppoll(&it, 1, &timeout, NULL) > 0 || is_timed, "nothing came");
}

/* Returns whether all messages were sent and received. The receiver of the quiet load detects that by the end of the
 * stream. */
static bool is_over(const side *s) {
    if (s->written < s->have || !s->is_idle)
        return false;
    if (s->load->is_quiet)
        return s->is_sender ? s->lanes[QUIET].sent == s->load->count : s->has_ended;
    for (unsigned channel = 0; channel < LCMUX_CHANNELS; channel++)
        if (s->lanes[channel].sent < s->load->count || s->lanes[channel].taken < s->load->count)
            return false;
    return true;
}

static void *drive(void *with) {
    side *s = with;
    bool is_shut = false;
    while (!is_shut || !s->has_ended) {
        for (unsigned channel = 0; channel < LCMUX_CHANNELS; channel++)
            take(s, channel);
        fill(s);
        flush(s);
        if (!is_shut && is_over(s)) {
            check(shutdown(s->fd, SHUT_WR) == 0, "shutdown");
            is_shut = true;
        }
        if (!read_in(s) && !(is_shut && s->has_ended))
            wait_for(s);
    }
    return NULL;
}

static void connect_pair(int fds[2]) {
    struct sockaddr_in at = {.sin_family = AF_INET, .sin_addr.s_addr = htonl(INADDR_LOOPBACK)};
    socklen_t len = sizeof at;
    int one = 1, listener = socket(AF_INET, SOCK_STREAM, 0);
    check(bind(listener, (struct sockaddr *)&at, len) == 0 && listen(listener, 1) == 0, "listen");
    check(getsockname(listener, (struct sockaddr *)&at, &len) == 0, "getsockname");
    fds[0] = socket(AF_INET, SOCK_STREAM, 0);
    check(connect(fds[0], (struct sockaddr *)&at, len) == 0, "connect");
    fds[1] = accept(listener, NULL, NULL);
    for (int i = 0; i < 2; i++)
        check(setsockopt(fds[i], IPPROTO_TCP, TCP_NODELAY, &one, sizeof one) == 0 &&
                  fcntl(fds[i], F_SETFL, O_NONBLOCK) == 0,
              "a socket");
    close(listener);
}

static side *new_side(const load *load, int fd, bool is_sender) {
    lcmux_config config = {1, SLOTS, {RING, RING, RING, RING, RING, RING, RING}};
    side *s = calloc(1, sizeof *s);
    check(s != NULL, "memory");
    s->load = load;
    s->fd = fd;
    s->is_sender = load->is_quiet && is_sender;
    s->due = nanoseconds() + BEFORE;
    s->times = calloc(load->count, sizeof *s->times);
    check(s->times != NULL && lcmux_peer_new(&config, &s->peer).code == LCMUX_OK, "memory");
    for (unsigned channel = 0; channel < LCMUX_CHANNELS; channel++)
        check(lcmux_peer_issue(&s->peer, channel, RING).code == LCMUX_OK, "issue");
    return s;
}

static int by_size(const void *a, const void *b) {
    double x = *(const double *)a, y = *(const double *)b;
    return (x > y) - (x < y);
}

static void print_times(side *s) {
    uint32_t last = s->load->count - 1;
    double took = (double)(nanoseconds() - s->began) / 1e9;
    qsort(s->times, s->load->count, sizeof *s->times, by_size);
    printf("c median %.1f p99 %.1f most %.1f us, bulk %.0f MB/s\n", s->times[last / 2],
           s->times[(uint64_t)last * 99 / 100], s->times[last], (double)s->bulk / 1e6 / took);
}

static double microseconds(struct timeval time) {
    return (double)time.tv_sec * 1e6 + (double)time.tv_usec;
}

static void print_rate(const load *load, uint64_t took) {
    struct rusage used;
    double messages = 2.0 * LCMUX_CHANNELS * load->count;
    check(getrusage(RUSAGE_SELF, &used) == 0, "getrusage");
    double spent = microseconds(used.ru_utime) + microseconds(used.ru_stime);
    printf("c.%zu %.0f messages/s %.2f us\n", load->length, messages * 1e9 / (double)took, spent / messages);
}

static void run(const load *load) {
    int fds[2];
    side *sides[2];
    pthread_t threads[2];
    connect_pair(fds);
    for (int i = 0; i < 2; i++)
        sides[i] = new_side(load, fds[i], i == 0);
    uint64_t start = nanoseconds();
    for (int i = 0; i < 2; i++)
        check(pthread_create(&threads[i], NULL, drive, sides[i]) == 0, "a thread");
    for (int i = 0; i < 2; i++)
        check(pthread_join(threads[i], NULL) == 0, "join");
    if (load->is_quiet) {
        check(sides[1]->lanes[QUIET].taken == load->count, "messages are missing");
        print_times(sides[1]);
    } else {
        print_rate(load, nanoseconds() - start);
    }
    for (int i = 0; i < 2; i++) {
        close(fds[i]);
        lcmux_peer_free(&sides[i]->peer);
        free(sides[i]->times);
        free(sides[i]);
    }
}

/* Parses a number in a range. */
static bool reads(const char *word, unsigned long least, unsigned long most, unsigned long *number) {
    char *end;
    *number = strtoul(word, &end, 10);
    return *word && !*end && *number >= least && *number <= most;
}

int main(int argc, char **argv) {
    unsigned long length = BULK, count = 0;
    bool is_quiet = argc == 3 && strcmp(argv[1], "quiet") == 0;
    bool is_swap = argc == 4 && strcmp(argv[1], "swap") == 0 && reads(argv[2], 0, LONGEST, &length) &&
                   (length == 0 || length >= 4);
    if (!(is_quiet || is_swap) || !reads(argv[argc - 1], 1, 100000000, &count)) {
        fprintf(stderr, "usage: beside swap LENGTH COUNT, beside quiet COUNT\n");
        return 2;
    }
    load load = {is_quiet, length, (uint32_t)count};
    run(&load);
    return 0;
}
