/* A heap of the program's own, which refuses one request after another and counts the blocks that are not freed; and
 * calls through an empty handle. */
#include "lcmux.h"
#include "lcmux_heap.h"

#include <stdio.h>
#include <stdlib.h>
#include <string.h>

static int requests, refuse, live;
static char nothing;

struct lcmux_tried lcmux_alloc(size_t size, size_t align) {
    if (++requests == refuse)
        return (struct lcmux_tried){false, &nothing};
    live++;
    return (struct lcmux_tried){true, malloc(size ? size : align)};
}

struct lcmux_tried lcmux_realloc(void *at, size_t kept, size_t size, size_t align) {
    (void)kept;
    if (++requests == refuse)
        return (struct lcmux_tried){false, &nothing};
    return (struct lcmux_tried){true, realloc(at, size ? size : align)};
}

void lcmux_dealloc(void *at) {
    live--;
    free(at);
}

static void must(bool holds, const char *what) {
    if (!holds) {
        printf("FAILED at request %d: %s\n", refuse, what);
        exit(1);
    }
}

/* The call whose request was refused: 'n' for new, 's' for send, '-' for none. */
static char run(const lcmux_config *config) {
    static const uint8_t issue[] = {0x21, 0, 0, 0, 5};
    lcmux_peer peer = LCMUX_PEER_EMPTY;
    lcmux_client client = LCMUX_CLIENT_INIT;
    requests = live = 0;
    if (lcmux_peer_new(config, &peer).code != LCMUX_OK) {
        must(live == 0, "what was made is given back");
        must(lcmux_peer_pending(&peer).code == LCMUX_NO_PEER, "the handle stays empty");
        return 'n';
    }
    must(lcmux_peer_deliver(&peer, issue, sizeof issue).frames == 1, "guarantees arrive");
    lcmux_answer sent = lcmux_peer_send(&peer, 1, (const uint8_t *)"hello", 5);
    must(sent.code == LCMUX_OK || sent.code == LCMUX_OUT_OF_MEMORY, "the code of a send");
    lcmux_peer_client(&peer, 1, &client);
    must(client.held == (sent.code == LCMUX_OK ? 0 : 5), "a send that was refused spent nothing");
    must(lcmux_peer_pending(&peer).number == (sent.code == LCMUX_OK ? 8 : 0), "and put nothing");
    must(lcmux_peer_free(&peer).code == LCMUX_OK, "free");
    peer = LCMUX_PEER_EMPTY;
    must(lcmux_peer_free(&peer).code == LCMUX_NO_PEER, "an empty handle may be assigned");
    must(live == 0, "everything is given back");
    return sent.code == LCMUX_OK ? '-' : 's';
}

/* The same of a session: 'n' for new, 'w' for a call that waits or goes at once, '-' for none. A call whose request was
 * refused does not wait. */
static char run_mux(void) {
    static const uint8_t arrives[] = {'L', 'C', 'M', 2, 0x21, 0, 0, 0, 5};
    lcmux_config config = {2, 14, {8, 8, 8, 8, 8, 8, 8}};
    lcmux_mux mux = LCMUX_MUX_EMPTY;
    lcmux_notice notice = LCMUX_NOTICE_INIT;
    requests = live = 0;
    if (lcmux_mux_new(&config, &mux).code != LCMUX_OK) {
        must(live == 0, "what was made of a session is given back");
        must(lcmux_mux_over(&mux).code == LCMUX_NO_PEER, "its handle stays empty");
        return 'n';
    }
    must(lcmux_mux_set_issue_policy(&mux, 1, LCMUX_BY_CALLER).code == LCMUX_OK, "a policy");
    must(lcmux_mux_deliver(&mux, arrives, sizeof arrives).frames == 1, "guarantees arrive at a session");
    /* Five guarantees: the second message goes at once where the first was refused, and so does the limit where the offer
     * was, behind which it waits. */
    uint32_t first = lcmux_mux_send(&mux, 1, 1, (const uint8_t *)"hello", 5).code;
    uint32_t second = lcmux_mux_send(&mux, 1, 2, (const uint8_t *)"later", 5).code;
    uint32_t offer = lcmux_mux_offer(&mux, 2, 3, 4).code;
    uint32_t permit = lcmux_mux_reserve(&mux, 3, 4, 4).code;
    uint32_t limit = lcmux_mux_limit_sending(&mux, 2, 5, 9).code;
    const uint32_t none = LCMUX_OUT_OF_MEMORY;
    int refused = (first == none) + (second == none) + (offer == none) + (permit == none) + (limit == none);
    must(refused == (requests >= refuse), "the call whose request was refused says so, and no other");
    must(first == none || first == LCMUX_OK, "a message that goes at once");
    must(second == none || second == (first == none ? LCMUX_OK : LCMUX_WAITS), "a message that waits");
    must(offer == none || offer == LCMUX_OK, "an offer");
    must(permit == none || permit == LCMUX_WAITS, "a permit that waits");
    must(limit == none || limit == (offer == none ? LCMUX_OK : LCMUX_WAITS), "a limit that waits");
    must(lcmux_mux_next_notice(&mux, &notice).code == LCMUX_NO_NOTICE, "a call that was refused has no notice");
    must(lcmux_mux_cancel(&mux, 1, 2).number == (second == LCMUX_WAITS), "it does not wait");
    must(lcmux_mux_cancel(&mux, 2, 3).number == (offer == LCMUX_OK), "nor does an offer");
    must(lcmux_mux_cancel(&mux, 3, 4).number == (permit == LCMUX_WAITS), "nor does a permit");
    must(lcmux_mux_free(&mux).code == LCMUX_OK && live == 0, "all of a session is given back");
    return refused ? 'w' : '-';
}

static void empty_handle(lcmux_peer *peer) {
    uint8_t buffer[8] = "unused";
    lcmux_client client = {.held = 1}; /* its size is not looked at */
    lcmux_server server = {.issued = 1};
    lcmux_ready ready = {.channels[6].plead = 7};
    lcmux_error error = {.byte = 5};
    lcmux_front front = {{buffer, 8}, {buffer, 8}};
    lcmux_next next = {.header_len = 1, .message = {buffer, 8}};
    lcmux_delivery delivery = lcmux_peer_deliver(peer, buffer, 4);
    must(delivery.code == LCMUX_NO_PEER && delivery.taken == 0 && delivery.frames == 0, "deliver");
    must(lcmux_peer_send(peer, 1, buffer, 4).code == LCMUX_NO_PEER, "send");
    must(lcmux_peer_issue(peer, 9, 1).code == LCMUX_NO_PEER, "issue");
    must(lcmux_peer_absolve(peer, 1, 1).code == LCMUX_NO_PEER, "absolve");
    must(lcmux_peer_plead(peer, 1, 1).code == LCMUX_NO_PEER, "plead");
    must(lcmux_peer_honour(peer, 1).code == LCMUX_NO_PEER, "honour");
    must(lcmux_peer_limit_sending(peer, 1, 1).code == LCMUX_NO_PEER, "limit sending");
    must(lcmux_peer_limit_receiving(peer, 1, 1).code == LCMUX_NO_PEER, "limit receiving");
    must(lcmux_peer_finish(peer, 1).code == LCMUX_NO_PEER, "finish");
    must(lcmux_peer_write(peer, buffer, 4).code == LCMUX_NO_PEER, "write");
    must(lcmux_peer_pending(peer).code == LCMUX_NO_PEER, "pending");
    must(lcmux_peer_next(peer, &next).code == LCMUX_NO_PEER && !next.header_len && !next.message.len, "next");
    must(next.message.bytes, "a piece that is empty is no null pointer");
    must(lcmux_peer_sent(peer).code == LCMUX_NO_PEER, "sent");
    must(lcmux_peer_end(peer).code == LCMUX_NO_PEER, "end");
    must(lcmux_peer_front_len(peer, 1).code == LCMUX_NO_PEER, "front length");
    must(lcmux_peer_front(peer, 1, &front).code == LCMUX_NO_PEER && !front.first.len && !front.rest.len, "front");
    must(front.first.bytes && front.rest.bytes, "pieces that are empty are no null pointers");
    must(lcmux_peer_pop(peer, 1).code == LCMUX_NO_PEER, "pop");
    must(lcmux_peer_take(peer, 1, buffer, 8).code == LCMUX_NO_PEER, "take");
    must(lcmux_peer_client(peer, 1, &client).code == LCMUX_NO_PEER && client.held == 1, "client");
    must(lcmux_peer_server(peer, 1, &server).code == LCMUX_NO_PEER && server.issued == 1, "server");
    must(lcmux_peer_would_send(peer, 1, 1).code == LCMUX_NO_PEER, "would send");
    must(lcmux_peer_would_issue(peer, 9, 1).code == LCMUX_NO_PEER, "would issue");
    must(lcmux_peer_would_absolve(peer, 1, 1).code == LCMUX_NO_PEER, "would absolve");
    must(lcmux_peer_would_plead(peer, 1, 1).code == LCMUX_NO_PEER, "would plead");
    must(lcmux_peer_would_honour(peer, 1).code == LCMUX_NO_PEER, "would honour");
    must(lcmux_peer_would_limit_sending(peer, 1, 1).code == LCMUX_NO_PEER, "would limit sending");
    must(lcmux_peer_would_limit_receiving(peer, 1, 1).code == LCMUX_NO_PEER, "would limit receiving");
    must(lcmux_peer_would_finish(peer, 1).code == LCMUX_NO_PEER, "would finish");
    must(lcmux_peer_needs(peer, 1, 1).code == LCMUX_NO_PEER, "needs");
    must(lcmux_peer_slots_left(peer).code == LCMUX_NO_PEER, "slots left");
    must(lcmux_peer_wants_write(peer).code == LCMUX_NO_PEER, "wants write");
    must(lcmux_peer_ready(peer, &ready).code == LCMUX_NO_PEER && ready.channels[6].plead == 7, "ready");
    must(lcmux_peer_error(peer, &error).code == LCMUX_NO_PEER && error.byte == 5, "error");
    must(lcmux_peer_free(peer).code == LCMUX_NO_PEER, "free");
    must(lcmux_peer_free(NULL).code == LCMUX_NO_PEER, "free of no handle");
    must(!memcmp(buffer, "unused\0", 8), "nothing is written");
}

/* A buffer of length 0 may be NULL. */
static void empty_buffers(lcmux_peer *peer) {
    lcmux_delivery delivery = lcmux_peer_deliver(peer, NULL, 0);
    must(delivery.code == LCMUX_OK && delivery.taken == 0 && delivery.frames == 0, "deliver nothing");
    must(lcmux_peer_send(peer, 1, NULL, 0).code == LCMUX_EMPTY_BODY, "send nothing");
    must(lcmux_peer_take(peer, 1, NULL, 0).code == LCMUX_EMPTY, "take into nothing");
    must(lcmux_peer_issue(peer, 1, 4).code == LCMUX_OK, "issue");
    lcmux_answer wrote = lcmux_peer_write(peer, NULL, 0);
    must(wrote.code == LCMUX_OK && wrote.number == 0, "write to nothing");
    delivery = lcmux_peer_deliver(peer, (const uint8_t *)"\x11\0\3abc", 6);
    must(delivery.frames == 1, "deliver");
    lcmux_answer took = lcmux_peer_take(peer, 1, NULL, 0);
    must(took.code == LCMUX_BUFFER_TOO_SMALL && took.number == 3, "take into too little");
    delivery = lcmux_peer_deliver(peer, (const uint8_t *)"\x11\0\1d", 4);
    must(delivery.frames == 1 && lcmux_peer_pop(peer, 1).number == 3, "drop what was too long");
    took = lcmux_peer_take(peer, 1, NULL, 0);
    must(took.code == LCMUX_BUFFER_TOO_SMALL && took.number == 1, "take one byte into nothing");
    must(lcmux_text(LCMUX_OK, NULL, 0).code == LCMUX_BUFFER_TOO_SMALL, "tell nothing");
}

/* A struct that is shorter than the library's is not filled, and one that is longer is filled in front. */
static void sizes(lcmux_peer *peer) {
    struct { lcmux_client balances; uint64_t later; } longer = {LCMUX_CLIENT_INIT, 5};
    lcmux_client client = {.size = 79, .held = 1};
    lcmux_server server = {.size = 103, .issued = 1};
    lcmux_ready ready = {.size = 287, .channels[6].plead = 7};
    lcmux_error error = {.size = 63, .byte = 5};
    must(sizeof client == 80 && sizeof server == 104 && sizeof ready == 288 && sizeof error == 64, "the sizes of this version");
    lcmux_answer answer = lcmux_peer_client(peer, 1, &client);
    must(answer.code == LCMUX_BAD_SIZE && answer.number == 80 && client.held == 1, "a client that is too short");
    answer = lcmux_peer_server(peer, 1, &server);
    must(answer.code == LCMUX_BAD_SIZE && answer.number == 104 && server.issued == 1, "a server that is too short");
    answer = lcmux_peer_ready(peer, &ready);
    must(answer.code == LCMUX_BAD_SIZE && answer.number == 288 && ready.channels[6].plead == 7, "a ready that is too short");
    answer = lcmux_peer_error(peer, &error);
    must(answer.code == LCMUX_BAD_SIZE && answer.number == 64 && error.byte == 5, "an error that is too short");
    longer.balances.size = sizeof longer, longer.balances.held = 3;
    must(lcmux_peer_client(peer, 1, &longer.balances).code == LCMUX_OK && longer.balances.held == 0, "a client that is longer");
    must(longer.balances.size == sizeof longer && longer.later == 5, "keeps what this version doesn't know");
    must(lcmux_peer_client(peer, 7, &client).code == LCMUX_NO_CHANNEL, "the channel comes first");
}

/* The sizes of 0.1 stay accepted, and nothing behind them is written, however long the structs will be. */
static void first_sizes(lcmux_peer *peer) {
    static const uint64_t sizes[] = {80, 104, 288, 64};
    union { lcmux_client client; lcmux_server server; lcmux_ready ready; lcmux_error error; uint64_t words[64]; } it;
    for (int k = 0; k < 4; k++) {
        memset(&it, 0xa5, sizeof it);
        it.words[0] = sizes[k];
        lcmux_answer answer = k == 0   ? lcmux_peer_client(peer, 1, &it.client)
                              : k == 1 ? lcmux_peer_server(peer, 1, &it.server)
                              : k == 2 ? lcmux_peer_ready(peer, &it.ready)
                                       : lcmux_peer_error(peer, &it.error);
        must(answer.code == LCMUX_OK && it.words[0] == sizes[k], "a size of 0.1");
        for (uint64_t at = 1; at < 64; at++)
            must((it.words[at] == 0xa5a5a5a5a5a5a5a5) == (at >= sizes[k] / 8), "fills what a size of 0.1 covers");
    }
}

/* Each balance of a channel by its name, before and after both sides finish it; and behind an empty handle. */
static void balances(lcmux_peer *peer) {
    static const uint8_t before[] = "LCM\2\x22\0\0\0\7\x42\0\0\0\3\x62\0\0\0\0\0\0\0\x1e\x12\0\0\0\2hi\x32\0\0\0\1\x52\0\0\0\0\0\0\0\x28";
    lcmux_client client = LCMUX_CLIENT_INIT, sending = {.size = 80, .held = 4, .received = 7, .spent = 1, .absolved = 2, .send_left = 9, .receive_left = 30, .asked = 3};
    lcmux_server server = LCMUX_SERVER_INIT, receiving = {.size = 104, .capacity = 11, .issued = 5, .received = 2, .absolved = 1, .outstanding = 2, .buffered = 2, .room = 7, .send_left = 40, .receive_left = 20};
    must(lcmux_peer_new(&(lcmux_config){2, 8, {8, 8, 11, 8, 8, 8, 8}}, peer).code == LCMUX_OK, "new in version 2");
    must(lcmux_peer_issue(peer, 2, 5).code == LCMUX_OK, "issue");
    must(lcmux_peer_limit_receiving(peer, 2, 20).code == LCMUX_OK, "limit receiving");
    must(lcmux_peer_deliver(peer, before, sizeof before - 1).frames == 6, "six frames");
    must(lcmux_peer_send(peer, 2, (const uint8_t *)"x", 1).code == LCMUX_OK, "send");
    must(lcmux_peer_absolve(peer, 2, 2).code == LCMUX_OK, "absolve");
    must(lcmux_peer_limit_sending(peer, 2, 9).code == LCMUX_OK, "limit sending");
    must(lcmux_peer_client(peer, 2, &client).code == LCMUX_OK && !memcmp(&client, &sending, sizeof client), "client before");
    must(lcmux_peer_server(peer, 2, &server).code == LCMUX_OK && !memcmp(&server, &receiving, sizeof server), "server before");

    must(lcmux_peer_finish(peer, 2).code == LCMUX_OK, "finish");
    must(lcmux_peer_deliver(peer, (const uint8_t *)"\x72", 1).frames == 1, "a finish");
    sending.held = 0, sending.waived = 4, sending.asked = LCMUX_NONE, sending.finished = 1;
    receiving.outstanding = 0, receiving.waived = 2, receiving.room = 9, receiving.finished = 1;
    must(lcmux_peer_client(peer, 2, &client).code == LCMUX_OK && !memcmp(&client, &sending, sizeof client), "client behind");
    must(lcmux_peer_server(peer, 2, &server).code == LCMUX_OK && !memcmp(&server, &receiving, sizeof server), "server behind");
    must(lcmux_peer_free(peer).code == LCMUX_OK, "free in version 2");
}

/* Bytes of a stream, and what is wrong with them: each field by its name. */
static const struct {
    const char *bytes;
    size_t len;
    lcmux_error error;
} errors[] = {
    {"\x21\0\0\0\7\x31\0\0\0\6", 10, {.code = LCMUX_V3_ABSOLVED_TOO_MUCH, .offset = 5, .kind = 3, .channel = 1, .number = 6, .allowed = 5, .byte = LCMUX_NONE}},
    {"\x21\0\0\0\7\x33\0\0\0\6", 10, {.code = LCMUX_V3_ABSOLVED_TOO_MUCH, .offset = 5, .kind = 3, .channel = 3, .number = 6, .allowed = 0, .byte = LCMUX_NONE}},
    {"\x11\0\1a\x11\0\5hello\x77", 13, {.code = LCMUX_V1_NOT_GUARANTEED, .offset = 4, .kind = 1, .channel = 1, .number = 5, .allowed = 4, .byte = LCMUX_NONE}},
    {"LCM\2\x11\0\0\1\0", 9 + 256, {.code = LCMUX_V1_NOT_GUARANTEED, .offset = 4, .kind = 1, .channel = 1, .number = 256, .allowed = 5, .byte = LCMUX_NONE}},
    {"LCM\2\x71\x71", 6, {.code = LCMUX_V9_AFTER_FINISH, .offset = 5, .kind = 7, .channel = 1, .number = LCMUX_NONE, .allowed = LCMUX_NONE, .byte = LCMUX_NONE}},
    {"\x21\0\0\0\7\x7f\x21", 7, {.code = LCMUX_F1_BAD_TAG, .offset = 5, .kind = LCMUX_NONE, .channel = LCMUX_NONE, .number = LCMUX_NONE, .allowed = LCMUX_NONE, .byte = 0x7f}},
    {"LCm\2", 4, {.code = LCMUX_F1_BAD_TAG, .offset = 0, .kind = LCMUX_NONE, .channel = LCMUX_NONE, .number = LCMUX_NONE, .allowed = LCMUX_NONE, .byte = 'm'}},
    {"\x21\0\0\0\7\x11\0\0", 8, {.code = LCMUX_F2_ZERO_LENGTH, .offset = 5, .kind = 1, .channel = 1, .number = 0, .allowed = LCMUX_NONE, .byte = LCMUX_NONE}},
    {"\x21\0\0\0\7\x66\x40\0\0\0\0\0\0\1", 14, {.code = LCMUX_F3_BAD_NUMBER, .offset = 5, .kind = 6, .channel = 6, .number = (UINT64_C(1) << 62) + 1, .allowed = LCMUX_NONE, .byte = LCMUX_NONE}},
    {"LCM\2\x21\0\0\0\7\x11\0", 11, {.code = LCMUX_OK, .offset = 9, .kind = LCMUX_NONE, .channel = LCMUX_NONE, .number = LCMUX_NONE, .allowed = LCMUX_NONE, .byte = LCMUX_NONE}},
};

/* A stream that is given up says where, and what was allowed there, whole and byte by byte. */
static void protocol_errors(lcmux_peer *peer) {
    static uint8_t bytes[300];
    char what[32];
    for (size_t k = 0; k < 2 * sizeof errors / sizeof *errors; k++) {
        size_t len = errors[k / 2].len, piece = k % 2 ? 1 : len;
        lcmux_error want = errors[k / 2].error, error = {.size = sizeof error + 8};
        snprintf(what, sizeof what, "protocol error %zu", k / 2);
        memset(bytes, 'x', sizeof bytes);
        memcpy(bytes, errors[k / 2].bytes, len < 16 ? len : 9);
        must(lcmux_peer_new(&(lcmux_config){2, 8, {8, 8, 8, 8, 8, 8, 8}}, peer).code == LCMUX_OK, "a peer that reads");
        must(lcmux_peer_issue(peer, 1, 5).code == LCMUX_OK && lcmux_peer_issue(peer, 2, 3).code == LCMUX_OK, "issue");
        for (size_t at = 0; at < len; at += piece)
            lcmux_peer_deliver(peer, bytes + at, piece);
        want.size = error.size;
        must(lcmux_peer_error(peer, &error).code == LCMUX_OK && !memcmp(&error, &want, sizeof error), what);
        must(lcmux_peer_free(peer).code == LCMUX_OK, "free");
    }
    printf("%zu protocol errors\n", sizeof errors / sizeof *errors);
}

/* The sentence of each code. */
static const struct {
    uint32_t code;
    const char *text;
} sentences[] = {
    /* codes: begin sentences */
    {LCMUX_OK, "done"},
    {LCMUX_EMPTY_BODY, "the message is empty"},
    {LCMUX_BODY_TOO_LONG, "the message is too long"},
    {LCMUX_PAST_SEND_LIMIT, "the message is longer than the limit on sending leaves"},
    {LCMUX_NO_GUARANTEE, "the message is longer than the guarantees that are held"},
    {LCMUX_ZERO_AMOUNT, "the amount is zero"},
    {LCMUX_NOT_HELD, "more would be absolved than is held"},
    {LCMUX_BOUND_TOO_LARGE, "the bound is above 2^62"},
    {LCMUX_LIMIT_RAISED, "the bound is above what an earlier limit leaves"},
    {LCMUX_PAST_RECEIVE_LIMIT, "more would be issued than the limit on receiving leaves"},
    {LCMUX_NO_ROOM, "more would be issued than the receiving ring has room for"},
    {LCMUX_NOTHING_TO_ASK, "the target is not below the guarantees outstanding"},
    {LCMUX_TOTAL_REACHED, "the guarantees of one channel would pass 2^62"},
    {LCMUX_QUEUE_FULL, "the outgoing queue is full"},
    {LCMUX_OUT_OF_MEMORY, "out of memory"},
    {LCMUX_CHANNEL_FINISHED, "the channel is finished"},
    {LCMUX_BUFFER_TOO_SMALL, "the buffer is too small"},
    {LCMUX_WRONG_VERSION, "version 1 of the format cannot finish a channel"},
    {LCMUX_NO_PEER, "the handle is empty"},
    {LCMUX_HAS_PEER, "the handle has a peer already"},
    {LCMUX_NO_CHANNEL, "there is no such channel"},
    {LCMUX_BAD_VERSION, "there is no such version of the format"},
    {LCMUX_BAD_CAPACITY, "a capacity is not 1 to 2^24"},
    {LCMUX_BAD_SLOTS, "the slots are not 1 to 65,536"},
    {LCMUX_NO_CODE, "there is no such code"},
    {LCMUX_BAD_SIZE, "a struct is shorter than its size has to be"},
    {LCMUX_EMPTY, "no message waits"},
    {LCMUX_ENDED, "no message waits, and none will come"},
    {LCMUX_NEVER, "the message can never be sent"},
    {LCMUX_WAITS, "the call waits"},
    {LCMUX_NO_NOTICE, "no notice is there"},
    {LCMUX_NOTIFIED, "the offered message can be sent"},
    {LCMUX_CLOSED_HERE, "this side closed the session"},
    {LCMUX_CLOSED_THERE, "the peer closed the session"},
    {LCMUX_CUT, "the stream ended before the peer finished"},
    {LCMUX_ABORTED, "the session was aborted"},
    {LCMUX_TRANSPORT_FAILED, "the transport failed"},
    {LCMUX_V1_NOT_GUARANTEED, "a message longer than the guarantees outstanding"},
    {LCMUX_V2_SENT_PAST_LIMIT, "a message beyond the limit on sending"},
    {LCMUX_V3_ABSOLVED_TOO_MUCH, "more guarantees absolved than are outstanding"},
    {LCMUX_V4_SEND_LIMIT_RAISED, "a limit on sending that raises an earlier one"},
    {LCMUX_V5_ISSUED_PAST_LIMIT, "guarantees beyond the limit on receiving"},
    {LCMUX_V6_TOO_MANY_GUARANTEES, "more than 2^24 guarantees held"},
    {LCMUX_V7_RECEIVE_LIMIT_RAISED, "a limit on receiving that raises an earlier one"},
    {LCMUX_V8_TOTAL_PASSED, "more than 2^62 guarantees on one channel"},
    {LCMUX_V9_AFTER_FINISH, "a frame of the client behind its Finish"},
    {LCMUX_F1_BAD_TAG, "a byte names no kind or channel, or is not the greeting's"},
    {LCMUX_F2_ZERO_LENGTH, "a message has length 0"},
    {LCMUX_F3_BAD_NUMBER, "a number in a frame is out of its range"},
    {LCMUX_F4_TRUNCATED, "the stream ends within a frame or a greeting"},
    /* codes: end */
};

#define SENTENCES (sizeof sentences / sizeof *sentences)

/* Each code has its sentence, and no other number has one. */
static void tell_all(void) {
    size_t told = 0;
    for (uint32_t code = 0; code < 1 << 17; code++) {
        char text[64];
        memset(text, '#', sizeof text);
        lcmux_answer answer = lcmux_text(code, text, sizeof text);
        if (told == SENTENCES || sentences[told].code != code) {
            must(answer.code == LCMUX_NO_CODE && answer.number == 0 && text[0] == '#', "no other code");
            must(!strcmp(lcmux_strerror(code), "there is no such code"), "and no other string");
            continue;
        }
        size_t len = strlen(sentences[told].text);
        must(answer.code == LCMUX_OK && answer.number == len, "its length");
        must(!strcmp(text, sentences[told].text) && text[len + 1] == '#', "its sentence");
        must(!strcmp(lcmux_strerror(code), text), "the same sentence as a string");
        text[0] = '#';
        answer = lcmux_text(code, text, len);
        must(answer.code == LCMUX_BUFFER_TOO_SMALL && answer.number == len + 1, "no room for the zero byte");
        must(text[0] == '#', "nothing is written");
        told++;
    }
    must(told == SENTENCES, "each code");
    printf("%zu sentences\n", told);
}

/* The borrowed first message may be sent on the same peer. */
static void front_is_sent(const lcmux_config *config) {
    static const uint8_t arrives[] = {0x21, 0, 0, 0, 5, 0x11, 0, 5, 'h', 'e', 'l', 'l', 'o'};
    lcmux_peer peer = LCMUX_PEER_EMPTY;
    lcmux_front front;
    uint8_t out[16];
    must(lcmux_peer_new(config, &peer).code == LCMUX_OK, "a peer that sends on");
    must(lcmux_peer_issue(&peer, 1, 5).code == LCMUX_OK && lcmux_peer_write(&peer, out, 16).number == 5, "issue");
    must(lcmux_peer_deliver(&peer, arrives, sizeof arrives).frames == 2, "a message arrives");
    must(lcmux_peer_front(&peer, 1, &front).number == 5 && front.first.len == 5, "in one piece");
    must(lcmux_peer_send(&peer, 1, front.first.bytes, front.first.len).code == LCMUX_OK, "it is sent on");
    must(lcmux_peer_write(&peer, out, 16).number == 8 && !memcmp(out, arrives + 5, 8), "as it came");
    must(lcmux_peer_pop(&peer, 1).number == 5 && lcmux_peer_free(&peer).code == LCMUX_OK, "pop");
}

/* The defaults of a configuration, through calls that take a const handle. */
static void defaults(const lcmux_config *config, lcmux_peer *peer) {
    lcmux_server server = LCMUX_SERVER_INIT;
    must(config->version == 1 && lcmux_peer_new(config, peer).code == LCMUX_OK, "a peer of the defaults");
    const lcmux_peer *read = peer;
    must(lcmux_peer_slots_left(read).number == 16 && lcmux_peer_wants_write(read).number == 0, "16 slots");
    for (uint32_t channel = 0; channel < 7; channel++)
        must(lcmux_peer_server(read, channel, &server).code == LCMUX_OK && server.room == 65536, "rings of 64 KiB");
    must(lcmux_peer_free(peer).code == LCMUX_OK, "free of the defaults");
}

int main(void) {
    lcmux_config config = {1, 4, {8, 8, 8, 8, 8, 8, 8}};
    int made = 0, sent = 0;
    char where;
    for (refuse = 1; (where = run(&config)) != '-'; refuse++)
        *(where == 'n' ? &made : &sent) += 1;
    must(requests + 1 == refuse, "each request was refused once");
    printf("refused requests: %d of new, %d of send\n", made, sent);
    made = sent = 0;
    for (refuse = 1; (where = run_mux()) != '-'; refuse++)
        *(where == 'n' ? &made : &sent) += 1;
    must(requests + 1 == refuse, "each request of a session was refused once");
    printf("refused requests of a session: %d of new, %d of senders\n", made, sent);

    refuse = 0;
    front_is_sent(&config);
    lcmux_peer peer = LCMUX_PEER_EMPTY;
    empty_handle(&peer);
    requests = 0;
    must(lcmux_peer_new(&config, &peer).code == LCMUX_OK, "new");
    must(lcmux_peer_new(&config, &peer).code == LCMUX_HAS_PEER, "a second new");
    must(lcmux_peer_pending(&peer).code == LCMUX_OK, "which leaves the peer");
    empty_buffers(&peer);
    sizes(&peer);
    first_sizes(&peer);
    must(lcmux_peer_free(&peer).code == LCMUX_OK, "free");
    empty_handle(&peer);
    config.capacities[3] = 0;
    config.version = 0;
    must(lcmux_peer_new(&config, &peer).code == LCMUX_BAD_VERSION, "version 0");
    config.version = 3;
    must(lcmux_peer_new(&config, &peer).code == LCMUX_BAD_VERSION, "version 3");
    config.version = 2;
    config.slots = 65537;
    lcmux_answer bad = lcmux_peer_new(&config, &peer);
    must(bad.code == LCMUX_BAD_CAPACITY && bad.number == 3, "capacity");
    config.capacities[3] = 1 << 24;
    must(lcmux_peer_new(&config, &peer).code == LCMUX_BAD_SLOTS, "slots");
    must(requests == 18, "a configuration that is refused asks for no memory");
    must(lcmux_version() == LCMUX_VERSION_NUMBER, "version");
    puts("handles and configurations as the header says");
    defaults(&(lcmux_config)LCMUX_CONFIG_INIT, &peer);
    balances(&peer);
    protocol_errors(&peer);
    tell_all();
    return 0;
}
