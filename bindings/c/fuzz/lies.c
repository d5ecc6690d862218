/* Wraps the library, where it is linked with --wrap, and falsifies the one result that LCMUX_LIE names: the
 * comparison with the rules has to detect it. */
#include "lcmux.h"

#include <stdbool.h>
#include <stdlib.h>
#include <string.h>

#define WRAPPED(type, name, ...)    \
    type __real_##name(__VA_ARGS__); \
    type __wrap_##name(__VA_ARGS__)

static bool lie(const char *name) {
    static const char *chosen;
    if (!chosen && !(chosen = getenv("LCMUX_LIE")))
        chosen = "";
    return !strcmp(chosen, name);
}

/* The state of the last handles. */
static struct known {
    const lcmux_peer *peer;
    uint32_t version, greeted;
} seen[8];

static struct known *known(const lcmux_peer *peer) {
    static int next;
    for (int at = 0; at < 8; at++)
        if (seen[at].peer == peer)
            return &seen[at];
    struct known *new = &seen[next++ % 8];
    *new = (struct known){.peer = peer};
    return new;
}

WRAPPED(lcmux_answer, lcmux_peer_client, const lcmux_peer *peer, uint32_t channel, lcmux_client *balances) {
    lcmux_answer answer = __real_lcmux_peer_client(peer, channel, balances);
    if (answer.code != LCMUX_OK)
        return answer;
    if (lie("held counts one more after an absolve") && balances->absolved)
        balances->held++;
    if (lie("two balances are exchanged")) {
        uint64_t spent = balances->spent;
        balances->spent = balances->absolved;
        balances->absolved = spent;
    }
    if (lie("a plead for nothing is none") && balances->asked == 0)
        balances->asked = LCMUX_NONE;
    return answer;
}

WRAPPED(lcmux_answer, lcmux_peer_server, const lcmux_peer *peer, uint32_t channel, lcmux_server *balances) {
    lcmux_answer answer = __real_lcmux_peer_server(peer, channel, balances);
    if (answer.code == LCMUX_OK && lie("room counts what is waived twice"))
        balances->room -= balances->waived;
    return answer;
}

WRAPPED(lcmux_answer, lcmux_peer_new, const lcmux_config *config, lcmux_peer *peer) {
    lcmux_config other = *config;
    if (lie("a slot less") && config->slots > 1 && config->slots <= 65536)
        other.slots--;
    if (lie("a byte more of capacity") && config->capacities[6] < 64)
        other.capacities[6]++;
    if (lie("the slots are looked at first") && (config->slots == 0 || config->slots > 65536))
        memset(other.capacities, 1, sizeof other.capacities);
    lcmux_answer answer = __real_lcmux_peer_new(&other, peer);
    if (answer.code == LCMUX_OK)
        *known(peer) = (struct known){peer, config->version, config->version == 1};
    return answer;
}

WRAPPED(lcmux_answer, lcmux_peer_send, lcmux_peer *peer, uint32_t channel, const uint8_t *body, size_t len) {
    if (lie("the longest message is too long") && len == 65535 && known(peer)->version == 1 && peer->mark && channel < LCMUX_CHANNELS)
        return (lcmux_answer){LCMUX_BODY_TOO_LONG, 0};
    lcmux_answer answer = __real_lcmux_peer_send(peer, channel, body, len);
    if (lie("another refusal") && answer.code == LCMUX_PAST_SEND_LIMIT)
        answer.code = LCMUX_NO_GUARANTEE;
    return answer;
}

WRAPPED(lcmux_answer, lcmux_peer_issue, lcmux_peer *peer, uint32_t channel, uint32_t amount) {
    lcmux_server server = LCMUX_SERVER_INIT;
    bool is_last = __real_lcmux_peer_server(peer, channel, &server).code == LCMUX_OK && server.room == amount && amount > 0 && !server.finished;
    if (lie("the last byte of room is refused") && is_last && server.receive_left == LCMUX_NONE)
        return (lcmux_answer){LCMUX_NO_ROOM, amount};
    return __real_lcmux_peer_issue(peer, channel, amount);
}

WRAPPED(lcmux_answer, lcmux_peer_plead, lcmux_peer *peer, uint32_t channel, uint32_t target) {
    lcmux_server server = LCMUX_SERVER_INIT;
    bool is_done = __real_lcmux_peer_server(peer, channel, &server).code == LCMUX_OK && target < server.outstanding;
    if (lie("a plead is lost") && is_done && channel == 1)
        return (lcmux_answer){LCMUX_OK, 0};
    return __real_lcmux_peer_plead(peer, channel, target);
}

WRAPPED(lcmux_answer, lcmux_peer_limit_sending, lcmux_peer *peer, uint32_t channel, uint64_t bound) {
    if (lie("a limit is one higher") && bound > 0 && bound < 64)
        bound++;
    return __real_lcmux_peer_limit_sending(peer, channel, bound);
}

WRAPPED(lcmux_answer, lcmux_peer_limit_receiving, lcmux_peer *peer, uint32_t channel, uint64_t bound) {
    lcmux_answer answer = __real_lcmux_peer_limit_receiving(peer, channel, bound);
    if (lie("the largest bound is too large") && answer.code == LCMUX_OK && bound == UINT64_C(1) << 62)
        answer.code = LCMUX_BOUND_TOO_LARGE;
    return answer;
}

WRAPPED(lcmux_answer, lcmux_peer_finish, lcmux_peer *peer, uint32_t channel) {
    lcmux_client client = LCMUX_CLIENT_INIT;
    bool is_done = __real_lcmux_peer_client(peer, channel, &client).code == LCMUX_OK && !client.finished && known(peer)->version == 2;
    if (lie("a finish is not written") && is_done)
        return (lcmux_answer){LCMUX_OK, 0};
    return __real_lcmux_peer_finish(peer, channel);
}

WRAPPED(lcmux_delivery, lcmux_peer_deliver, lcmux_peer *peer, const uint8_t *piece, size_t len) {
    lcmux_delivery delivery = __real_lcmux_peer_deliver(peer, piece, len);
    if (lie("another violation") && delivery.code == LCMUX_V2_SENT_PAST_LIMIT)
        delivery.code = LCMUX_V1_NOT_GUARANTEED;
    if (lie("the frame that stops it is counted") && delivery.code > LCMUX_OK && delivery.taken > 0)
        delivery.frames++;
    return delivery;
}

WRAPPED(lcmux_answer, lcmux_peer_end, const lcmux_peer *peer) {
    lcmux_answer answer = __real_lcmux_peer_end(peer);
    if (lie("a stream may end anywhere") && answer.code == LCMUX_F4_TRUNCATED)
        answer.code = LCMUX_OK;
    return answer;
}

WRAPPED(lcmux_answer, lcmux_peer_write, lcmux_peer *peer, uint8_t *buffer, size_t len) {
    static uint8_t greeting[4];
    if (lie("a greeting is forgotten") && peer->mark && len > 0 && !known(peer)->greeted++)
        __real_lcmux_peer_write(peer, greeting, sizeof greeting);
    lcmux_answer answer = __real_lcmux_peer_write(peer, buffer, len);
    if (lie("a byte too many is written") && answer.code == LCMUX_OK && answer.number == len && len > 0)
        buffer[len] = 0;
    return answer;
}

WRAPPED(lcmux_answer, lcmux_peer_next, const lcmux_peer *peer, lcmux_next *next) {
    lcmux_answer answer = __real_lcmux_peer_next(peer, next);
    if (lie("a lent frame has the tag of another") && answer.code == LCMUX_OK)
        next->header[0] ^= 1;
    if (lie("the bytes of a lent length are exchanged") && next->header_len == 3) {
        uint8_t high = next->header[1];
        next->header[1] = next->header[2];
        next->header[2] = high;
    }
    if (lie("a message is lent a byte late") && next->message.len > 1)
        next->message.bytes++;
    return answer;
}

WRAPPED(lcmux_answer, lcmux_peer_sent, lcmux_peer *peer) {
    lcmux_next next;
    if (lie("what was sent stays"))
        return __real_lcmux_peer_next(peer, &next);
    return __real_lcmux_peer_sent(peer);
}

WRAPPED(lcmux_answer, lcmux_peer_take, lcmux_peer *peer, uint32_t channel, uint8_t *buffer, size_t len) {
    static uint8_t room[1 << 20];
    lcmux_answer answer = __real_lcmux_peer_take(peer, channel, buffer, len);
    if (lie("a bit of a body is another") && answer.code == LCMUX_OK && answer.number > 9)
        buffer[9] ^= 1;
    if (lie("what has ended is empty") && answer.code == LCMUX_ENDED)
        answer.code = LCMUX_EMPTY;
    if (lie("a message that does not fit is lost") && answer.code == LCMUX_BUFFER_TOO_SMALL)
        __real_lcmux_peer_take(peer, channel, room, sizeof room);
    return answer;
}

WRAPPED(lcmux_answer, lcmux_peer_front, const lcmux_peer *peer, uint32_t channel, lcmux_front *message) {
    lcmux_answer answer = __real_lcmux_peer_front(peer, channel, message);
    if (lie("the pieces of a lent message are exchanged")) {
        lcmux_piece first = message->first;
        message->first = message->rest;
        message->rest = first;
    }
    if (lie("a lent message is a byte short") && message->rest.len > 0)
        message->rest.len--;
    return answer;
}

WRAPPED(lcmux_answer, lcmux_peer_pop, lcmux_peer *peer, uint32_t channel) {
    if (lie("a pop leaves the message"))
        return lcmux_peer_front_len(peer, channel);
    return __real_lcmux_peer_pop(peer, channel);
}

WRAPPED(lcmux_answer, lcmux_peer_would_send, const lcmux_peer *peer, uint32_t channel, size_t len) {
    lcmux_answer answer = __real_lcmux_peer_would_send(peer, channel, len);
    if (lie("a limit is not asked") && answer.code == LCMUX_PAST_SEND_LIMIT)
        answer = (lcmux_answer){LCMUX_OK, 0};
    if (lie("a slot is not asked for") && answer.code == LCMUX_QUEUE_FULL)
        answer.code = LCMUX_OK;
    return answer;
}

WRAPPED(lcmux_answer, lcmux_peer_needs, const lcmux_peer *peer, uint32_t channel, size_t len) {
    lcmux_answer answer = __real_lcmux_peer_needs(peer, channel, len);
    if (lie("nothing is needed without a slot") && answer.code == LCMUX_QUEUE_FULL)
        answer.code = LCMUX_OK;
    return answer;
}

WRAPPED(lcmux_answer, lcmux_peer_wants_write, const lcmux_peer *peer) {
    lcmux_answer answer = __real_lcmux_peer_wants_write(peer);
    if (lie("a greeting waits for a frame") && known(peer)->version == 2 && lcmux_peer_pending(peer).number == 4)
        answer.number = 0;
    return answer;
}

WRAPPED(lcmux_answer, lcmux_peer_ready, const lcmux_peer *peer, lcmux_ready *ready) {
    lcmux_answer answer = __real_lcmux_peer_ready(peer, ready);
    if (lie("a neighbour is ready") && answer.code == LCMUX_OK)
        ready->channels[2] = ready->channels[1];
    return answer;
}
