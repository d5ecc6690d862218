/* Runs the cases of rows.txt and vectors.txt through the library. `rows FILE` delivers the bytes of a line at once,
 * `rows FILE 1` one byte at a time, and takes and sends borrowed messages. Prints how many lines had the expected
 * answer. `rows FILE answer` prints the answer of each line of calls instead, as soon as the line is read; `-` is the
 * standard input. */
#include "lcmux.h"

#include <inttypes.h>
#include <stdbool.h>
#include <stdio.h>
#include <stdlib.h>
#include <string.h>

/* One side, and its bytes that have not arrived. */
struct side {
    lcmux_peer peer;
    uint8_t out[1 << 21];
    size_t from, to;
};

static struct side sides[2];
static size_t piece = SIZE_MAX;
static bool answers;
static char said[512];

static void say_code(uint32_t code, uint64_t number) {
    /* codes: begin carried numbers */
    static const char *const named[18] = {
        [3] = "left", [4] = "held", [6] = "held", [8] = "left", [9] = "left", [10] = "room", [11] = "outstanding",
        [16] = "need",
    };
    /* codes: end */
    if (code == LCMUX_OK)
        strcpy(said, "ok");
    else if (code < sizeof named / sizeof *named && named[code])
        snprintf(said, sizeof said, "refused %" PRIu32 " %s %" PRIu64, code, named[code], number);
    else if (code < sizeof named / sizeof *named)
        snprintf(said, sizeof said, "refused %" PRIu32, code);
    else if (code == LCMUX_NO_PEER || code == LCMUX_NO_CHANNEL)
        strcpy(said, code == LCMUX_NO_PEER ? "no peer" : "no channel");
    else if (code == LCMUX_EMPTY || code == LCMUX_ENDED)
        strcpy(said, code == LCMUX_EMPTY ? "empty" : "ended");
    else
        snprintf(said, sizeof said, code > 200 ? "fault F%" PRIu32 : "violation V%" PRIu32, code % 100);
}

static void say_hex(const char *before, const uint8_t *bytes, size_t len) {
    size_t at = (size_t)snprintf(said, sizeof said, "%s%s", before, len ? "" : "-");
    for (size_t i = 0; i < len && at < sizeof said; i++)
        at += (size_t)snprintf(said + at, sizeof said - at, "%02x", bytes[i]);
}

static size_t unhex(const char *hex, uint8_t *bytes) {
    size_t len = 0;
    unsigned byte;
    for (; sscanf(hex + 2 * len, "%2x", &byte) == 1; len++)
        bytes[len] = (uint8_t)byte;
    return len;
}

static const char *or_none(uint64_t left, char *text) {
    if (left == LCMUX_NONE)
        return "-";
    sprintf(text, "%" PRIu64, left);
    return text;
}

/* Writes the pending frames from the memory of the library. */
static void send_lent(struct side *me) {
    lcmux_next next = {{0}, 1, {NULL, 1}};
    for (;;) {
        lcmux_answer lent = lcmux_peer_next(&me->peer, &next);
        if (next.header_len + next.message.len != lent.number || !next.message.bytes)
            abort();
        memcpy(me->out + me->to, next.header, next.header_len);
        memcpy(me->out + me->to + next.header_len, next.message.bytes, next.message.len);
        me->to += lent.number;
        lcmux_answer sent = lcmux_peer_sent(&me->peer);
        if (sent.code != lent.code || sent.number != lent.number)
            abort();
        if (lent.code != LCMUX_OK)
            return;
    }
}

/* Returns all pending bytes. */
static void send_out(struct side *me) {
    if (piece == 1)
        send_lent(me);
    me->to += lcmux_peer_write(&me->peer, me->out + me->to, sizeof me->out - me->to).number;
    if (piece == 1)
        send_lent(me);
}

/* Delivers the next frame of the peer's bytes, byte by byte. */
static void arrive(struct side *me, struct side *other) {
    send_out(other);
    while (other->from < other->to) {
        lcmux_delivery d = lcmux_peer_deliver(&me->peer, other->out + other->from++, 1);
        if (d.code != LCMUX_OK || d.frames == 1) {
            say_code(d.code, 0);
            if (d.code == LCMUX_OK)
                strcpy(said, "arrived");
            return;
        }
    }
    strcpy(said, "nothing in flight");
}

static void deliver(struct side *me, const uint8_t *bytes, size_t len) {
    lcmux_delivery d = {LCMUX_OK, 0, 0};
    for (size_t at = 0; at < len && d.code == LCMUX_OK; at += d.taken)
        d = lcmux_peer_deliver(&me->peer, bytes + at, len - at < piece ? len - at : piece);
    say_code(d.code, 0);
}

/* Appends the waived guarantees, if the channel is finished. */
static void say_waived(int at, uint64_t finished, uint64_t waived) {
    if (finished || waived)
        snprintf(said + at, sizeof said - (size_t)at, " finished %" PRIu64 " waived %" PRIu64, finished, waived);
}

static void say_client(lcmux_peer *peer, uint32_t channel) {
    lcmux_client c = LCMUX_CLIENT_INIT;
    char a[24], b[24], d[24];
    lcmux_answer got = lcmux_peer_client(peer, channel, &c);
    say_code(got.code, got.number);
    if (got.code != LCMUX_OK)
        return;
    int at = snprintf(said, sizeof said, "held %" PRIu64 " send_left %s receive_left %s asked %s", c.held, or_none(c.send_left, a), or_none(c.receive_left, b), or_none(c.asked, d));
    say_waived(at, c.finished, c.waived);
}

static void say_server(lcmux_peer *peer, uint32_t channel) {
    lcmux_server s = LCMUX_SERVER_INIT;
    lcmux_answer got = lcmux_peer_server(peer, channel, &s);
    say_code(got.code, got.number);
    if (got.code != LCMUX_OK)
        return;
    int at = snprintf(said, sizeof said, "outstanding %" PRIu64 " buffered %" PRIu64 " room %" PRIu64, s.outstanding, s.buffered, s.room);
    if (s.send_left != LCMUX_NONE)
        at += snprintf(said + at, sizeof said - (size_t)at, " send_left %" PRIu64, s.send_left);
    say_waived(at, s.finished, s.waived);
}

static void say_honoured(lcmux_answer answer) {
    say_code(answer.code, answer.number);
    if (answer.code == LCMUX_OK && answer.number)
        snprintf(said, sizeof said, "absolved %" PRIu64, answer.number);
    else if (answer.code == LCMUX_OK)
        strcpy(said, "nothing to absolve");
}

static void say_needs(lcmux_answer answer) {
    say_code(answer.code, answer.number);
    if (answer.code == LCMUX_OK)
        strcpy(said, "nothing");
    else if (answer.code == LCMUX_NO_GUARANTEE)
        snprintf(said, sizeof said, "%" PRIu64 " more", answer.number);
    else if (answer.code == LCMUX_QUEUE_FULL || answer.code == LCMUX_NEVER)
        strcpy(said, answer.code == LCMUX_NEVER ? "never" : "a slot");
}

/* The channels that the program can act on, and how. */
static void say_ready(lcmux_peer *peer) {
    lcmux_ready ready = LCMUX_READY_INIT;
    lcmux_answer got = lcmux_peer_ready(peer, &ready);
    size_t at = 0;
    say_code(got.code, got.number);
    if (got.code != LCMUX_OK)
        return;
    strcpy(said, "nothing");
    for (int c = 0; c < LCMUX_CHANNELS; c++) {
        const lcmux_channel_ready *on = &ready.channels[c];
        const uint64_t is[] = {on->message, on->ended, on->plead, on->finished, on->finished_there};
        static const char *const words[] = {"message", "ended", "plead", "finished", "finished-there"};
        for (int k = 0; k < 5; k++)
            if (is[k])
                at += (size_t)snprintf(said + at, sizeof said - at, "%s%d %s", at ? ", " : "", c, words[k]);
    }
}

/* What is wrong with the inbound stream where it ends here, and where that is. */
static void say_error(lcmux_peer *peer) {
    lcmux_error e = LCMUX_ERROR_INIT;
    char number[24], allowed[24];
    uint32_t code = lcmux_peer_end(peer).code;
    lcmux_answer got = lcmux_peer_error(peer, &e);
    if (got.code != LCMUX_OK || got.number || e.code != (code == LCMUX_F4_TRUNCATED ? LCMUX_OK : code))
        abort();
    say_code(code, 0);
    if (code == LCMUX_OK)
        return;
    size_t at = strlen(said);
    at += (size_t)snprintf(said + at, sizeof said - at, " at %" PRIu64, e.offset);
    if (e.kind != LCMUX_NONE)
        snprintf(said + at, sizeof said - at, ": kind %" PRIu64 " channel %" PRIu64 " number %s allowed %s", e.kind, e.channel, or_none(e.number, number), or_none(e.allowed, allowed));
    if (e.byte != LCMUX_NONE)
        snprintf(said + at, sizeof said - at, ": byte %" PRIu64, e.byte);
}

/* A query with a plain answer: the word after "would-". */
static bool question(lcmux_peer *peer, const char *word, uint32_t channel, const char *arg, lcmux_answer *answer) {
    uint64_t number = strtoull(arg, NULL, 10);
    if (!strcmp(word, "send"))
        *answer = lcmux_peer_would_send(peer, channel, number);
    else if (!strcmp(word, "issue"))
        *answer = lcmux_peer_would_issue(peer, channel, (uint32_t)number);
    else if (!strcmp(word, "absolve"))
        *answer = lcmux_peer_would_absolve(peer, channel, (uint32_t)number);
    else if (!strcmp(word, "plead"))
        *answer = lcmux_peer_would_plead(peer, channel, (uint32_t)number);
    else if (!strcmp(word, "limit-sending"))
        *answer = lcmux_peer_would_limit_sending(peer, channel, number);
    else if (!strcmp(word, "limit-receiving"))
        *answer = lcmux_peer_would_limit_receiving(peer, channel, number);
    else if (!strcmp(word, "finish"))
        *answer = lcmux_peer_would_finish(peer, channel);
    else
        return false;
    return true;
}

/* Runs one line without its answer. Returns whether it is a local operation with a plain answer. */
static bool own_call(lcmux_peer *peer, const char *word, uint32_t channel, const char *arg, lcmux_answer *answer) {
    static uint8_t body[1 << 21];
    uint64_t number = strtoull(arg, NULL, 10);
    if (!strncmp(word, "would-", 6))
        return question(peer, word + 6, channel, arg, answer);
    if (!strcmp(word, "send"))
        *answer = lcmux_peer_send(peer, channel, body, unhex(arg, body));
    else if (!strcmp(word, "send-zeros"))
        *answer = lcmux_peer_send(peer, channel, body, number);
    else if (!strcmp(word, "issue"))
        *answer = lcmux_peer_issue(peer, channel, (uint32_t)number);
    else if (!strcmp(word, "absolve"))
        *answer = lcmux_peer_absolve(peer, channel, (uint32_t)number);
    else if (!strcmp(word, "plead"))
        *answer = lcmux_peer_plead(peer, channel, (uint32_t)number);
    else if (!strcmp(word, "limit-sending"))
        *answer = lcmux_peer_limit_sending(peer, channel, number);
    else if (!strcmp(word, "limit-receiving"))
        *answer = lcmux_peer_limit_receiving(peer, channel, number);
    else if (!strcmp(word, "finish"))
        *answer = lcmux_peer_finish(peer, channel);
    else
        return false;
    return true;
}

/* Borrows, copies and drops the first message. */
static lcmux_answer take_lent(lcmux_peer *peer, uint32_t channel, uint8_t *bytes) {
    lcmux_front front = {{NULL, 1}, {NULL, 1}};
    lcmux_answer lent = lcmux_peer_front(peer, channel, &front);
    if (front.first.len + front.rest.len != lent.number || !front.first.bytes || !front.rest.bytes)
        return (lcmux_answer){LCMUX_NO_CODE, 0};
    memcpy(bytes, front.first.bytes, front.first.len);
    memcpy(bytes + front.first.len, front.rest.bytes, front.rest.len);
    lcmux_answer popped = lcmux_peer_pop(peer, channel);
    return lent.code == popped.code && lent.number == popped.number ? popped : (lcmux_answer){LCMUX_NO_CODE, 0};
}

static bool other_call(struct side *me, struct side *other, const char *word, const char *first, const char *second) {
    static uint8_t bytes[1 << 21];
    uint32_t channel = (uint32_t)strtoull(first, NULL, 10);
    lcmux_answer answer = {LCMUX_OK, 0};
    if (!strcmp(word, "arrive"))
        arrive(me, other);
    else if (!strcmp(word, "bytes"))
        deliver(me, bytes, unhex(first, bytes));
    else if (!strcmp(word, "client"))
        say_client(&me->peer, channel);
    else if (!strcmp(word, "server"))
        say_server(&me->peer, channel);
    else if (!strcmp(word, "take")) {
        answer = *second       ? lcmux_peer_take(&me->peer, channel, bytes, strtoull(second, NULL, 10))
                 : piece == 1 ? take_lent(&me->peer, channel, bytes)
                              : lcmux_peer_take(&me->peer, channel, bytes, sizeof bytes);
        say_code(answer.code, answer.number);
        if (answer.code == LCMUX_OK)
            say_hex("took ", bytes, answer.number);
    } else if (!strcmp(word, "write")) {
        answer = lcmux_peer_write(&me->peer, bytes, channel);
        say_hex("", bytes, answer.number);
    } else if (!strcmp(word, "honour"))
        say_honoured(lcmux_peer_honour(&me->peer, channel));
    else if (!strcmp(word, "would-honour"))
        say_honoured(lcmux_peer_would_honour(&me->peer, channel));
    else if (!strcmp(word, "needs"))
        say_needs(lcmux_peer_needs(&me->peer, channel, strtoull(second, NULL, 10)));
    else if (!strcmp(word, "ready"))
        say_ready(&me->peer);
    else if (!strcmp(word, "front") || !strcmp(word, "pending") || !strcmp(word, "slots-left") || !strcmp(word, "wants-write")) {
        answer = *word == 'f'   ? lcmux_peer_front_len(&me->peer, channel)
                 : *word == 'p' ? lcmux_peer_pending(&me->peer)
                 : *word == 's' ? lcmux_peer_slots_left(&me->peer)
                                : lcmux_peer_wants_write(&me->peer);
        say_code(answer.code, answer.number);
        if (answer.code == LCMUX_OK)
            snprintf(said, sizeof said, "%" PRIu64, answer.number);
    } else if (!strcmp(word, "error"))
        say_error(&me->peer);
    else if (!strcmp(word, "end")) {
        answer = lcmux_peer_end(&me->peer);
        say_code(answer.code, answer.number);
    } else
        return false;
    return true;
}

static bool begin(uint32_t capacity, uint32_t slots, uint32_t version) {
    lcmux_config config = {.version = version, .slots = slots};
    for (int c = 0; c < LCMUX_CHANNELS; c++)
        config.capacities[c] = capacity;
    for (int s = 0; s < 2; s++) {
        lcmux_peer_free(&sides[s].peer);
        sides[s].from = sides[s].to = 0;
        if (lcmux_peer_new(&config, &sides[s].peer).code != LCMUX_OK)
            return false;
    }
    return true;
}

static bool run(char *line) {
    char name[2] = "", word[24] = "", first[256] = "", second[32] = "";
    uint32_t capacity, slots, version = 1;
    lcmux_answer answer;
    if (sscanf(line, "rings %" SCNu32 " %" SCNu32 " %" SCNu32, &capacity, &slots, &version) >= 2)
        return begin(capacity, slots, version);
    char *want = strstr(line, " => ");
    if (want)
        *want = 0;
    if (sscanf(line, "%1s %23s %255s %31s", name, word, first, second) < 2)
        return false;
    struct side *me = &sides[*name == 'B'], *other = &sides[*name == 'A'];
    if (own_call(&me->peer, word, (uint32_t)strtoull(first, NULL, 10), second, &answer))
        say_code(answer.code, answer.number);
    else if (!other_call(me, other, word, first, second))
        return false;
    return answers ? puts(said) >= 0 && !fflush(stdout) : want && !strcmp(said, want + 4);
}

int main(int argc, char **argv) {
    char line[512], shown[512];
    int cases = 0, lines = 0;
    FILE *rows = argc < 2 ? NULL : strcmp(argv[1], "-") ? fopen(argv[1], "r") : stdin;
    if (!rows)
        return 2;
    answers = argc > 2 && !strcmp(argv[2], "answer");
    if (argc > 2 && !answers)
        piece = strtoull(argv[2], NULL, 10);
    while (fgets(line, sizeof line, rows)) {
        line[strcspn(line, "\n")] = 0;
        if (!*line || *line == '#')
            continue;
        strcpy(shown, line);
        *said = 0;
        if (!run(line)) {
            printf("FAILED: %s, and was: %s\n", shown, said);
            return 1;
        }
        if (*shown == 'r')
            cases++;
        else
            lines++;
    }
    fclose(rows);
    for (int s = 0; s < 2; s++)
        lcmux_peer_free(&sides[s].peer);
    if (!answers)
        printf("%d cases, %d answers\n", cases, lines);
    return 0;
}
