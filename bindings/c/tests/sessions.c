/* The calls of a session: through an empty handle, and what schedules.txt leaves out: offers, permits, control calls and
 * policies, notices, balances, and each end by its code. */
#include "lcmux.h"

#include <stdbool.h>
#include <stdio.h>
#include <stdlib.h>
#include <string.h>

static const uint8_t zeros[1 << 17];
static uint8_t out[1 << 17];

static void must(bool holds, const char *what) {
    if (!holds) {
        printf("FAILED: %s\n", what);
        exit(1);
    }
}

static void is(lcmux_answer answer, uint32_t code, uint64_t number, const char *what) {
    if (answer.code != code || answer.number != number) {
        printf("FAILED: %s: %s, %llu\n", what, lcmux_strerror(answer.code), (unsigned long long)answer.number);
        exit(1);
    }
}

/* A new session of version 2 with 14 slots and rings of 100 bytes, which issues and honours by calls alone. */
static void begin(lcmux_mux *mux) {
    lcmux_config config = {2, 14, {100, 100, 100, 100, 100, 100, 100}};
    is(lcmux_mux_new(&config, mux), LCMUX_OK, 0, "new");
    for (uint32_t channel = 0; channel < LCMUX_CHANNELS; channel++) {
        is(lcmux_mux_set_issue_policy(mux, channel, LCMUX_BY_CALLER), LCMUX_OK, 0, "issue by calls");
        is(lcmux_mux_set_plead_policy(mux, channel, 0), LCMUX_OK, 0, "honour by calls");
    }
    is(lcmux_mux_write(mux, out, sizeof out), LCMUX_OK, 4, "the preface alone");
}

static void arrive(lcmux_mux *mux, const char *bytes, size_t len, uint64_t frames) {
    lcmux_delivery delivery = lcmux_mux_deliver(mux, (const uint8_t *)bytes, len);
    must(delivery.code == LCMUX_OK && delivery.taken == len && delivery.frames == frames, "bytes arrive");
}

/* The next bytes are these, and no others. */
static void writes(lcmux_mux *mux, const char *bytes, size_t len, const char *what) {
    is(lcmux_mux_write(mux, out, sizeof out), LCMUX_OK, len, what);
    must(memcmp(out, bytes, len) == 0, what);
}

static void notices(lcmux_mux *mux, uint64_t ticket, uint64_t channel, uint64_t outcome, const char *what) {
    lcmux_notice notice = LCMUX_NOTICE_INIT;
    is(lcmux_mux_next_notice(mux, &notice), LCMUX_OK, 0, what);
    must(notice.ticket == ticket && notice.channel == channel && notice.outcome == outcome, what);
}

static void no_notice(lcmux_mux *mux, const char *what) {
    lcmux_notice notice = {sizeof notice, 5, 6, 7};
    is(lcmux_mux_next_notice(mux, &notice), LCMUX_NO_NOTICE, 0, what);
    must(notice.size == 32 && notice.ticket == 5 && notice.channel == 6 && notice.outcome == 7, "and nothing is filled");
}

#define EACH(mux, channel, body, len) {                                                                            \
    lcmux_mux_send(mux, channel, 1, body, len), lcmux_mux_try_send(mux, channel, body, len),                        \
    lcmux_mux_offer(mux, channel, 1, len), lcmux_mux_complete(mux, channel, 1, body, len),                          \
    lcmux_mux_cancel(mux, channel, 1), lcmux_mux_reserve(mux, channel, 1, len),                                     \
    lcmux_mux_try_reserve(mux, channel, len), lcmux_mux_send_reserved(mux, channel, len, body, len),                \
    lcmux_mux_give_back(mux, channel, len), lcmux_mux_limit_sending(mux, channel, 1, 9),                            \
    lcmux_mux_finish(mux, channel, 1), lcmux_mux_issue(mux, channel, 1), lcmux_mux_limit_receiving(mux, channel, 9), \
    lcmux_mux_plead(mux, channel, 0), lcmux_mux_absolve(mux, channel, 1), lcmux_mux_honour(mux, channel),           \
    lcmux_mux_set_issue_policy(mux, channel, 1), lcmux_mux_set_plead_policy(mux, channel, 1),                       \
    lcmux_mux_owed(mux, channel, &owed), lcmux_mux_take(mux, channel, buffer, sizeof buffer),                       \
    lcmux_mux_front_len(mux, channel), lcmux_mux_front(mux, channel, &front), lcmux_mux_pop(mux, channel),          \
    lcmux_mux_client(mux, channel, &client), lcmux_mux_server(mux, channel, &server)}

/* Each call with a channel answers this code, and fills nothing. */
static void all_answer(lcmux_mux *mux, uint32_t channel, uint32_t code) {
    uint8_t buffer[4] = "abcd";
    lcmux_owed owed = {.size = sizeof owed, .absolve = 7};
    lcmux_client client = {.size = sizeof client, .held = 7};
    lcmux_server server = {.size = sizeof server, .issued = 7};
    lcmux_front front = {{zeros, 1}, {zeros, 1}};
    lcmux_answer answers[] = EACH(mux, channel, zeros, 4);
    for (size_t k = 0; k < sizeof answers / sizeof *answers; k++)
        is(answers[k], code, 0, "a call with a channel");
    must(owed.absolve == 7 && client.held == 7 && server.issued == 7 && memcmp(buffer, "abcd", 4) == 0, "fills nothing");
    must(front.first.len == 0 && front.rest.len == 0, "and borrows nothing");
}

static void empty_handle(lcmux_mux *mux) {
    uint8_t buffer[4] = "abcd";
    lcmux_notice notice = {sizeof notice, 5, 6, 7};
    lcmux_error error = {.size = sizeof error, .byte = 7};
    lcmux_delivery delivery = lcmux_mux_deliver(mux, buffer, 4);
    must(delivery.code == LCMUX_NO_PEER && delivery.taken == 0 && delivery.frames == 0, "deliver");
    lcmux_answer answers[] = {lcmux_mux_write(mux, buffer, 4), lcmux_mux_end_input(mux), lcmux_mux_is_done_writing(mux),
                              lcmux_mux_next_notice(mux, &notice), lcmux_mux_close(mux), lcmux_mux_abort(mux), lcmux_mux_fail(mux),
                              lcmux_mux_over(mux), lcmux_mux_slots_left(mux), lcmux_mux_error(mux, &error), lcmux_mux_free(mux), lcmux_mux_free(NULL)};
    for (size_t k = 0; k < sizeof answers / sizeof *answers; k++)
        is(answers[k], LCMUX_NO_PEER, 0, "a call on an empty handle");
    must(notice.ticket == 5 && error.byte == 7 && memcmp(buffer, "abcd", 4) == 0, "fills nothing");
    all_answer(mux, 1, LCMUX_NO_PEER);
    all_answer(mux, 9, LCMUX_NO_PEER);
}

/* What a session is not made of, and that its struct is not filled where it is too short. */
static void refusals(lcmux_mux *mux) {
    lcmux_config few = {1, 13, {1, 1, 1, 1, 1, 1, 0}}, bad = {1, 14, {1, 1, 1, 1, 1, 1, 0}};
    lcmux_notice notice = {31, 5, 6, 7};
    lcmux_owed owed = {.size = 55, .absolve = 7};
    lcmux_error error = {.size = 63, .byte = 7};
    is(lcmux_mux_new(&few, mux), LCMUX_BAD_SLOTS, 0, "too few slots come first");
    is(lcmux_mux_new(&bad, mux), LCMUX_BAD_CAPACITY, 6, "then a bad ring");
    few.version = 3;
    is(lcmux_mux_new(&few, mux), LCMUX_BAD_VERSION, 0, "and before both the version");
    begin(mux);
    is(lcmux_mux_new(&bad, mux), LCMUX_HAS_PEER, 0, "a full handle");
    all_answer(mux, 7, LCMUX_NO_CHANNEL);
    is(lcmux_mux_owed(mux, 1, &owed), LCMUX_BAD_SIZE, 56, "a struct that is too short");
    is(lcmux_mux_error(mux, &error), LCMUX_BAD_SIZE, 64, "the same of an error");
    arrive(mux, "LCM\2\x21\0\0\0\1", 9, 1);
    is(lcmux_mux_send(mux, 1, 3, zeros, 2), LCMUX_WAITS, 0, "send");
    arrive(mux, "\x21\0\0\0\1", 5, 1);
    is(lcmux_mux_next_notice(mux, &notice), LCMUX_BAD_SIZE, 32, "a notice that is too short");
    must(owed.absolve == 7 && error.byte == 7 && notice.ticket == 5, "is not filled");
    notices(mux, 3, 1, LCMUX_OK, "nor is it lost");
    no_notice(mux, "and it is taken once");
    is(lcmux_mux_send(mux, 1, 1, NULL, 0), LCMUX_EMPTY_BODY, 0, "no message");
    is(lcmux_mux_take(mux, 1, NULL, 0), LCMUX_EMPTY, 0, "into nothing");
    is(lcmux_mux_free(mux), LCMUX_OK, 0, "free");
}

/* Offers, attempts, permits and bounds of one channel. */
static void senders(lcmux_mux *mux) {
    begin(mux);
    is(lcmux_mux_try_send(mux, 1, zeros, 4), LCMUX_NO_GUARANTEE, 4, "an attempt without guarantees");
    is(lcmux_mux_try_reserve(mux, 1, 3), LCMUX_NO_GUARANTEE, 3, "the same of a permit");
    is(lcmux_mux_offer(mux, 1, 8, 4), LCMUX_OK, 0, "an offer");
    is(lcmux_mux_complete(mux, 1, 8, zeros, 4), LCMUX_WAITS, 0, "waits");
    is(lcmux_mux_reserve(mux, 1, 9, 5), LCMUX_WAITS, 0, "behind it a permit");
    is(lcmux_mux_limit_sending(mux, 1, 10, 3), LCMUX_WAITS, 0, "and a limit");
    is(lcmux_mux_finish(mux, 1, 11), LCMUX_WAITS, 0, "and the end");
    no_notice(mux, "nothing proceeds");
    arrive(mux, "LCM\2\x21\0\0\0\12", 9, 1);
    notices(mux, 8, 1, LCMUX_NOTIFIED, "the offer can be sent");
    no_notice(mux, "and nothing before it");
    is(lcmux_mux_complete(mux, 1, 8, (const uint8_t *)"abcd", 4), LCMUX_OK, 0, "it is");
    no_notice(mux, "the permit waits for the slot");
    writes(mux, "\x11\0\0\0\4abcd", 9, "the message of the offer");
    notices(mux, 9, 1, LCMUX_OK, "the permit is granted");
    no_notice(mux, "the limit waits for the permit");
    is(lcmux_mux_send_reserved(mux, 1, 5, zeros, 6), LCMUX_NO_GUARANTEE, 5, "too much for the permit");
    is(lcmux_mux_send_reserved(mux, 1, 5, (const uint8_t *)"hi", 2), LCMUX_OK, 0, "by the permit");
    notices(mux, 10, 1, LCMUX_OK, "then the limit");
    notices(mux, 11, 1, LCMUX_OK, "and the end");
    writes(mux, "\x11\0\0\0\2hi\x51\0\0\0\0\0\0\0\3\x71", 17, "in this order");
    is(lcmux_mux_give_back(mux, 1, 5), LCMUX_OK, 0, "no permit is out");
    is(lcmux_mux_send(mux, 1, 12, zeros, 1), LCMUX_CHANNEL_FINISHED, 0, "no message behind the end");
    arrive(mux, "\x22\0\0\0\4", 5, 1);
    is(lcmux_mux_try_reserve(mux, 2, 4), LCMUX_OK, 0, "a permit at once");
    is(lcmux_mux_send(mux, 2, 13, zeros, 2), LCMUX_WAITS, 0, "a message waits for it");
    is(lcmux_mux_cancel(mux, 2, 13), LCMUX_OK, 1, "and is given up");
    is(lcmux_mux_cancel(mux, 2, 13), LCMUX_OK, 0, "once");
    is(lcmux_mux_give_back(mux, 2, 4), LCMUX_OK, 1, "the permit is given back");
    is(lcmux_mux_try_send(mux, 2, zeros, 2), LCMUX_OK, 0, "and its guarantees are free");
    is(lcmux_mux_slots_left(mux), LCMUX_OK, 13, "one slot is taken");
    is(lcmux_mux_free(mux), LCMUX_OK, 0, "free");
}

/* Control calls, what is pending of them while no slot is free, and the policies. */
static void controls(lcmux_mux *mux) {
    lcmux_owed owed = LCMUX_OWED_INIT, due = {.size = sizeof owed, .issue = 5, .limit_receiving = 60, .plead = 9, .room = 85};
    lcmux_client client = LCMUX_CLIENT_INIT;
    lcmux_server server = LCMUX_SERVER_INIT;
    begin(mux);
    is(lcmux_mux_issue(mux, 1, 101), LCMUX_NO_ROOM, 100, "more than the ring");
    is(lcmux_mux_issue(mux, 1, 10), LCMUX_OK, 0, "issue");
    for (uint32_t k = 0; k < 6; k++)
        is(lcmux_mux_issue(mux, 2, 1), LCMUX_OK, 0, "all slots for control frames");
    is(lcmux_mux_issue(mux, 1, 5), LCMUX_OK, 0, "an issue is accepted still");
    is(lcmux_mux_limit_receiving(mux, 1, 60), LCMUX_OK, 0, "and a limit");
    is(lcmux_mux_plead(mux, 1, 15), LCMUX_NOTHING_TO_ASK, 15, "no plead above what is outstanding");
    is(lcmux_mux_plead(mux, 1, 9), LCMUX_OK, 0, "a plead");
    is(lcmux_mux_owed(mux, 1, &owed), LCMUX_OK, 0, "what is pending");
    must(memcmp(&owed, &due, sizeof owed) == 0, "by its names");
    is(lcmux_mux_write(mux, out, sizeof out), LCMUX_OK, 7 * 5 + 5 + 9 + 5, "all of it is written");
    must(memcmp(out + 35, "\x21\0\0\0\5\x61\0\0\0\0\0\0\0\x3c\x41\0\0\0\11", 19) == 0, "in the order of the calls");
    is(lcmux_mux_absolve(mux, 1, 1), LCMUX_NOT_HELD, 0, "nothing is held");
    arrive(mux, "LCM\2\x21\0\0\0\11\x41\0\0\0\4", 14, 2);
    is(lcmux_mux_absolve(mux, 1, 2), LCMUX_OK, 0, "absolve");
    is(lcmux_mux_honour(mux, 1), LCMUX_OK, 0, "honour");
    writes(mux, "\x31\0\0\0\2\x31\0\0\0\3", 10, "what is above the target is absolved");
    is(lcmux_mux_client(mux, 1, &client), LCMUX_OK, 0, "as client");
    must(client.held == 4 && client.absolved == 5 && client.asked == LCMUX_NONE, "it holds the target");
    is(lcmux_mux_set_plead_policy(mux, 1, 1), LCMUX_OK, 0, "honour at once");
    arrive(mux, "\x41\0\0\0\1", 5, 1);
    writes(mux, "\x31\0\0\0\3", 5, "without a call");
    is(lcmux_mux_set_issue_policy(mux, 3, 100), LCMUX_OK, 0, "below a mark");
    writes(mux, "\x23\0\0\0\x64", 5, "all room is issued");
    is(lcmux_mux_set_issue_policy(mux, 4, LCMUX_AT_ONCE), LCMUX_OK, 0, "at once");
    writes(mux, "\x24\0\0\0\x64", 5, "all room is issued");
    is(lcmux_mux_server(mux, 4, &server), LCMUX_OK, 0, "as server");
    must(server.outstanding == 100 && server.room == 0, "all is outstanding");
    is(lcmux_mux_free(mux), LCMUX_OK, 0, "free");
}

static void messages(lcmux_mux *mux) {
    uint8_t buffer[8] = "........";
    lcmux_front front;
    begin(mux);
    is(lcmux_mux_issue(mux, 1, 50), LCMUX_OK, 0, "issue");
    arrive(mux, "LCM\2\x11\0\0\0\3abc\x11\0\0\0\2de\x11\0\0\0\1f\x71", 26, 4);
    is(lcmux_mux_front_len(mux, 1), LCMUX_OK, 3, "the length of the first");
    is(lcmux_mux_front(mux, 1, &front), LCMUX_OK, 3, "where it lies");
    must(front.first.len == 3 && memcmp(front.first.bytes, "abc", 3) == 0 && front.rest.len == 0, "in one piece");
    is(lcmux_mux_take(mux, 1, buffer, 2), LCMUX_BUFFER_TOO_SMALL, 3, "too short");
    is(lcmux_mux_take(mux, 1, buffer, sizeof buffer), LCMUX_OK, 3, "take");
    must(memcmp(buffer, "abc.....", 8) == 0, "its bytes");
    is(lcmux_mux_pop(mux, 1), LCMUX_OK, 2, "pop");
    is(lcmux_mux_abort(mux), LCMUX_OK, 0, "abort");
    is(lcmux_mux_take(mux, 1, buffer, sizeof buffer), LCMUX_ABORTED, 0, "nothing is taken behind an abort");
    is(lcmux_mux_pop(mux, 1), LCMUX_ABORTED, 0, "nor dropped");
    is(lcmux_mux_front_len(mux, 1), LCMUX_ABORTED, 0, "nor seen");
    is(lcmux_mux_front(mux, 1, &front), LCMUX_ABORTED, 0, "nor lent");
    must(front.first.len == 0, "no byte of it");
    is(lcmux_mux_free(mux), LCMUX_OK, 0, "free");
    begin(mux);
    is(lcmux_mux_issue(mux, 1, 50), LCMUX_OK, 0, "issue");
    arrive(mux, "LCM\2\x11\0\0\0\1f\x71", 11, 2);
    is(lcmux_mux_fail(mux), LCMUX_OK, 0, "the transport fails");
    is(lcmux_mux_take(mux, 1, buffer, sizeof buffer), LCMUX_OK, 1, "what arrived is taken still");
    is(lcmux_mux_take(mux, 1, buffer, sizeof buffer), LCMUX_ENDED, 0, "and then the end");
    is(lcmux_mux_free(mux), LCMUX_OK, 0, "free");
}

/* A session that is over answers its end, writes nothing, and takes no byte. */
static void is_over(lcmux_mux *mux, uint32_t code, const char *what) {
    lcmux_delivery delivery = lcmux_mux_deliver(mux, (const uint8_t *)"\x21\0\0\0\1", 5);
    must(delivery.code == code && delivery.taken == 0 && delivery.frames == 0, what);
    is(lcmux_mux_over(mux), code, 0, what);
    is(lcmux_mux_send(mux, 1, 1, zeros, 1), code, 0, what);
    is(lcmux_mux_issue(mux, 1, 1), code, 0, what);
    is(lcmux_mux_write(mux, out, sizeof out), LCMUX_OK, 0, what);
    is(lcmux_mux_fail(mux), LCMUX_OK, 0, what);
    is(lcmux_mux_over(mux), code, 0, "the first end stays");
    is(lcmux_mux_free(mux), LCMUX_OK, 0, "free");
}

static void ends(lcmux_mux *mux) {
    lcmux_error error = LCMUX_ERROR_INIT;
    begin(mux);
    is(lcmux_mux_over(mux), LCMUX_OK, 0, "it goes on");
    is(lcmux_mux_abort(mux), LCMUX_OK, 0, "abort");
    is_over(mux, LCMUX_ABORTED, "aborted");
    begin(mux);
    is(lcmux_mux_fail(mux), LCMUX_OK, 0, "fail");
    is_over(mux, LCMUX_TRANSPORT_FAILED, "the transport failed");
    begin(mux);
    is(lcmux_mux_end_input(mux), LCMUX_OK, 0, "end");
    is_over(mux, LCMUX_CUT, "cut");
    begin(mux);
    is(lcmux_mux_issue(mux, 2, 3), LCMUX_OK, 0, "issue");
    must(lcmux_mux_deliver(mux, (const uint8_t *)"LCM\2\x12\0\0\0\1a\x32\0\0\0\7", 15).code == LCMUX_V3_ABSOLVED_TOO_MUCH, "a violation");
    is(lcmux_mux_error(mux, &error), LCMUX_OK, 0, "where");
    must(error.code == LCMUX_V3_ABSOLVED_TOO_MUCH && error.offset == 10 && error.kind == 3 && error.channel == 2, "at its frame");
    must(error.number == 7 && error.allowed == 2 && error.byte == LCMUX_NONE, "and what was allowed");
    is_over(mux, LCMUX_V3_ABSOLVED_TOO_MUCH, "violated");
    begin(mux);
    must(lcmux_mux_deliver(mux, (const uint8_t *)"LCM\2\x11\0\0\0\1a", 10).code == LCMUX_V1_NOT_GUARANTEED, "a violation");
    is_over(mux, LCMUX_V1_NOT_GUARANTEED, "violated");
    begin(mux);
    must(lcmux_mux_deliver(mux, (const uint8_t *)"LCM\2\x7f", 5).code == LCMUX_F1_BAD_TAG, "a fault");
    is_over(mux, LCMUX_F1_BAD_TAG, "at fault");
    begin(mux);
    arrive(mux, "LCM\2\x70\x71\x72\x73\x74\x75\x76", 11, 7);
    is(lcmux_mux_end_input(mux), LCMUX_OK, 0, "the peer ends in order");
    is(lcmux_mux_over(mux), LCMUX_OK, 0, "this side goes on");
    must(lcmux_mux_deliver(mux, zeros, 1).code == LCMUX_CLOSED_THERE, "no byte arrives any more");
    is(lcmux_mux_send(mux, 1, 1, zeros, 1), LCMUX_CLOSED_THERE, 0, "nor a guarantee");
    is(lcmux_mux_close(mux), LCMUX_OK, 0, "close");
    is(lcmux_mux_issue(mux, 1, 1), LCMUX_CLOSED_HERE, 0, "no call behind a close");
    is(lcmux_mux_is_done_writing(mux), LCMUX_OK, 0, "the ends are not written yet");
    is(lcmux_mux_over(mux), LCMUX_OK, 0, "so it is not over");
    writes(mux, "\x70\x71\x72\x73\x74\x75\x76", 7, "each channel is finished");
    is(lcmux_mux_is_done_writing(mux), LCMUX_OK, 1, "and then the stream ends");
    is_over(mux, LCMUX_CLOSED_HERE, "closed in order");
}

int main(void) {
    lcmux_mux mux = LCMUX_MUX_EMPTY;
    empty_handle(&mux);
    refusals(&mux);
    empty_handle(&mux);
    senders(&mux);
    controls(&mux);
    messages(&mux);
    ends(&mux);
    puts("sessions as the header says");
    return 0;
}
