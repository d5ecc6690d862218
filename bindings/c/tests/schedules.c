/* Runs the cases of schedules.txt over a session. `schedules FILE` prints the first answer of each case that is not the
 * one of its line, and at last how many cases and answers there were. */
#include "lcmux.h"

#include <inttypes.h>
#include <stdarg.h>
#include <stdbool.h>
#include <stdio.h>
#include <stdlib.h>
#include <string.h>

/* A bound waits by a ticket of its own, which no line names. */
enum { CHUNK = 1 << 17, CALLS = 256, BOUND = 1 << 20 };

static const uint8_t preface[] = {0x4c, 0x43, 0x4d, 2};
/* The bytes of the number of a frame, by its kind; of a message in version 1. */
static const size_t widths[8] = {0, 2, 4, 4, 4, 8, 8, 0};

/* The session; the bytes that the driver took and the transport did not take yet; and the waiting calls to send, each by
 * the number of its channel and 1. */
static lcmux_mux mux = LCMUX_MUX_EMPTY;
static unsigned version;
static uint8_t chunk[CHUNK];
static size_t chunk_len, preface_len;
static bool has_ended;
static uint32_t waiting[CALLS], tickets, bounds, slots;
/* The answer, and why calls failed that waited, by their tickets. */
static char said[1 << 14], failed[CALLS][16];

static void say(const char *format, ...) {
    va_list numbers;
    size_t at = strlen(said);
    va_start(numbers, format);
    vsnprintf(said + at, sizeof said - at, format, numbers);
    va_end(numbers);
}

static const char *name_of(uint32_t code) {
    static char refused[24];
    switch (code) {
    case LCMUX_OK: return "ok";
    case LCMUX_CLOSED_HERE: return "closed";
    case LCMUX_CUT: return "cut";
    case LCMUX_ABORTED: return "aborted";
    default: snprintf(refused, sizeof refused, "refused %" PRIu32, code); return refused;
    }
}

/* Takes the notices: of calls to send that were completed, in this order, and of those that never proceed. */
static void take_notices(void) {
    lcmux_notice notice = LCMUX_NOTICE_INIT;
    while (lcmux_mux_next_notice(&mux, &notice).code == LCMUX_OK) {
        if (notice.ticket >= BOUND)
            continue;
        if (!waiting[notice.ticket] || waiting[notice.ticket] != notice.channel + 1)
            say("; a notice of %" PRIu64 ", which does not wait", notice.ticket);
        waiting[notice.ticket] = 0;
        if (notice.outcome == LCMUX_OK)
            say("; done %" PRIu64, notice.ticket);
        else
            strcpy(failed[notice.ticket], notice.outcome == LCMUX_NEVER ? "refused 3" : "notified");
    }
}

/* Takes the next byte of the outbound stream. */
static bool pull_byte(void) {
    size_t count = lcmux_mux_write(&mux, chunk + chunk_len, 1).number;
    chunk_len += count;
    return count;
}

/* The driver takes the frames that are queued, and none that enters the queue meanwhile: a byte at a time, since a write
 * with more room gives those, too. */
static void pull(void) {
    lcmux_mux_write(&mux, chunk + chunk_len, 0); /* issues the room that was freed */
    uint64_t frames = slots - lcmux_mux_slots_left(&mux).number;
    while (chunk_len < preface_len && pull_byte())
        continue;
    preface_len = 0;
    for (; frames && pull_byte(); frames--) {
        unsigned kind = chunk[chunk_len - 1] >> 4;
        uint64_t number = 0;
        for (size_t width = kind == 1 ? 2 * version : widths[kind & 7]; width && pull_byte(); width--)
            number = number << 8 | chunk[chunk_len - 1];
        while (kind == 1 && number-- && pull_byte())
            continue;
    }
}

/* The driver takes what is queued, if its last bytes were taken. */
static void settle(void) {
    do {
        take_notices();
        if (chunk_len)
            return;
        pull();
    } while (chunk_len);
}

/* The calls that wait fail, once the session is closed or over. */
static void fail_all(uint32_t code) {
    for (uint32_t ticket = 1; ticket <= tickets; ticket++)
        if (waiting[ticket]) {
            waiting[ticket] = 0;
            strcpy(failed[ticket], name_of(code));
        }
}

static void say_events(void) {
    settle();
    for (uint32_t ticket = 1; ticket <= tickets; ticket++)
        if (failed[ticket][0]) {
            say("; %s %" PRIu32, failed[ticket], ticket);
            failed[ticket][0] = 0;
        }
    if (chunk_len == 0 && !has_ended && lcmux_mux_is_done_writing(&mux).number) {
        has_ended = true;
        say("; end");
    }
}

/* The frames of the chunk, which the transport takes. */
static void step(void) {
    static const char *const names[8] = {"", "send", "issue", "absolve", "plead", "limit-sending", "limit-receiving", "finish"};
    size_t at = chunk_len >= 4 && memcmp(chunk, preface, 4) == 0 ? 4 : 0;
    if (at == chunk_len)
        say(at ? "preface" : "nothing");
    for (const char *before = ""; at < chunk_len; before = ", ") {
        unsigned kind = chunk[at] >> 4, channel = chunk[at] & 15;
        size_t width = kind == 1 ? 2 * version : widths[kind & 7];
        uint64_t number = 0;
        for (at++; width; width--)
            number = number << 8 | chunk[at++];
        say(kind == 7 ? "%s%s %u" : "%s%s %u %" PRIu64, before, names[kind & 7], channel, number);
        at += kind == 1 ? (size_t)number : 0;
    }
    chunk_len = 0;
}

static void deliver(const uint8_t *bytes, size_t len) {
    uint32_t code = lcmux_mux_deliver(&mux, bytes, len).code;
    if (code != LCMUX_OK)
        say("the delivery answered %" PRIu32, code);
}

/* A frame of the peer arrives, which carries this number. */
static void arrive(unsigned kind, uint32_t channel, uint64_t number) {
    uint8_t frame[512] = {(uint8_t)(kind << 4 | channel)};
    size_t width = kind == 1 ? 2 * version : 4, at = 1;
    for (; at <= width; at++)
        frame[at] = (uint8_t)(number >> 8 * (width - at));
    deliver(frame, at + (kind == 1 ? (size_t)number : 0));
    say("ok");
}

static void send_message(uint32_t channel, size_t len) {
    static const uint8_t body[CHUNK];
    uint32_t code = lcmux_mux_send(&mux, channel, ++tickets, body, len).code;
    waiting[tickets] = code == LCMUX_WAITS ? channel + 1 : 0;
    say("%s", code == LCMUX_OK ? "sent" : code == LCMUX_WAITS ? "waits" : name_of(code));
}

static void cancel(uint64_t ticket) {
    uint32_t channel = ticket <= tickets ? waiting[ticket] : 0;
    bool waited = channel && lcmux_mux_cancel(&mux, channel - 1, ticket).number;
    if (ticket <= tickets)
        waiting[ticket] = 0;
    say(waited ? "cancelled" : "nothing");
}

static void take(uint32_t channel) {
    uint8_t buffer[256];
    lcmux_answer took = lcmux_mux_take(&mux, channel, buffer, sizeof buffer);
    if (took.code == LCMUX_OK)
        say("took %" PRIu64, took.number);
    else
        say(took.code == LCMUX_EMPTY ? "nothing" : name_of(took.code));
}

/* A bound is made or waits. */
static void say_bound(uint32_t code) {
    say("%s", name_of(code == LCMUX_WAITS ? LCMUX_OK : code));
}

static void limit(uint32_t channel, uint64_t bound) {
    say_bound(lcmux_mux_limit_sending(&mux, channel, BOUND + ++bounds, bound).code);
}

/* Version 1 has no Finish: there a limit of 0 ends a channel, once. */
static void finish(uint32_t channel) {
    lcmux_client client = LCMUX_CLIENT_INIT;
    lcmux_mux_client(&mux, channel, &client);
    if (version == 2)
        say_bound(lcmux_mux_finish(&mux, channel, BOUND + ++bounds).code);
    else if (client.send_left == 0 && lcmux_mux_over(&mux).code == LCMUX_OK)
        say("refused 15");
    else
        limit(channel, 0);
}

static void end_by(uint32_t code) {
    fail_all(code);
    say("ok");
}

static bool perform(const char *word, uint32_t channel, uint64_t number) {
    if (strcmp(word, "send") == 0)
        send_message(channel, (size_t)number);
    else if (strcmp(word, "cancel") == 0)
        cancel(channel);
    else if (strcmp(word, "take") == 0)
        take(channel);
    else if (strcmp(word, "step") == 0)
        step();
    else if (strcmp(word, "grant") == 0)
        arrive(2, channel, number);
    else if (strcmp(word, "arrive") == 0)
        arrive(1, channel, number);
    else if (strcmp(word, "issue") == 0)
        say("%s", name_of(lcmux_mux_issue(&mux, channel, (uint32_t)number).code));
    else if (strcmp(word, "absolve") == 0)
        say("%s", name_of(lcmux_mux_absolve(&mux, channel, (uint32_t)number).code));
    else if (strcmp(word, "limit") == 0)
        limit(channel, number);
    else if (strcmp(word, "finish") == 0)
        finish(channel);
    else if (strcmp(word, "close") == 0)
        end_by((lcmux_mux_close(&mux), LCMUX_CLOSED_HERE));
    else if (strcmp(word, "abort") == 0)
        end_by((lcmux_mux_abort(&mux), lcmux_mux_over(&mux).code));
    else if (strcmp(word, "cut") == 0)
        end_by((lcmux_mux_end_input(&mux), lcmux_mux_over(&mux).code));
    else
        return false;
    return true;
}

/* A new session, whose rings have 200 bytes, and which issues freed room by itself or by calls alone. */
static bool begin(const char *line) {
    lcmux_config config = {1, 14, {200, 200, 200, 200, 200, 200, 200}};
    if (sscanf(line, "session version %" SCNu32 " slots %" SCNu32, &config.version, &config.slots) != 2)
        return false;
    lcmux_mux_free(&mux);
    if (lcmux_mux_new(&config, &mux).code != LCMUX_OK)
        return false;
    version = config.version;
    slots = config.slots;
    chunk_len = tickets = bounds = 0;
    preface_len = version == 2 ? sizeof preface : 0;
    has_ended = false;
    for (uint32_t channel = 0; channel < LCMUX_CHANNELS && !strstr(line, "issues"); channel++)
        lcmux_mux_set_issue_policy(&mux, channel, LCMUX_BY_CALLER);
    if (version == 2)
        deliver(preface, sizeof preface);
    settle();
    return true;
}

int main(int argc, char **argv) {
    static char line[1 << 14];
    char word[16];
    unsigned cases = 0, answers = 0, wrong = 0;
    bool is_right = true;
    FILE *file = argc == 2 ? fopen(argv[1], "r") : NULL;
    if (!file) {
        fprintf(stderr, "usage: schedules FILE\n");
        return 2;
    }
    for (unsigned at = 1; fgets(line, sizeof line, file); at++) {
        line[strcspn(line, "\n")] = 0;
        char *due = strstr(line, " => ");
        uint32_t channel = 0;
        uint64_t number = 0;
        said[0] = 0;
        if (strncmp(line, "session ", 8) == 0) {
            if (!begin(line) || said[0]) {
                printf("line %u: no session\n", at);
                return 1;
            }
            cases++;
            is_right = true;
        }
        if (!due || sscanf(line, "%15s %" SCNu32 " %" SCNu64, word, &channel, &number) < 1)
            continue;
        answers++;
        if (!is_right)
            continue;
        if (!perform(word, channel, number)) {
            printf("line %u: no such call\n", at);
            return 1;
        }
        say_events();
        if (strcmp(said, due + 4) != 0) {
            printf("line %u: %s, and not %s\n", at, line, said);
            wrong++;
            is_right = false;
        }
    }
    fclose(file);
    lcmux_mux_free(&mux);
    if (wrong)
        printf("%u cases of %u differ\n", wrong, cases);
    else
        printf("%u cases, %u answers\n", cases, answers);
    return wrong > 0;
}
