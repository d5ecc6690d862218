/* The rules of a peer, from docs/reference/wire-format.md and lcmux.h, over complete lists and sums: every balance is
 * computed again from all frames that were sent and all that arrived. */
#ifndef LCMUX_MODEL_H
#define LCMUX_MODEL_H

#include "lcmux.h"

#include <algorithm>
#include <cstdint>
#include <iterator>
#include <vector>

namespace model {

using Bytes = std::vector<uint8_t>;

constexpr uint64_t most_held = 1 << 24, most_total = uint64_t(1) << 62;
constexpr uint8_t greeting[] = {0x4c, 0x43, 0x4d, 0x02};
constexpr uint32_t channels = LCMUX_CHANNELS;

/* codes: begin kinds */
enum Kind { Send = 1, Issue, Absolve, Plead, LimitSending, LimitReceiving, Finish };
/* codes: end */

/* The number of a Send is the length of its body. */
struct Frame {
    Kind kind;
    uint32_t channel;
    uint64_t number;
    Bytes body;
};

using Frames = std::vector<Frame>;

inline uint64_t most_body(uint32_t version) {
    return version == 1 ? 65535 : 1 << 20;
}

inline size_t width(Kind kind, uint32_t version) {
    switch (kind) {
    case Send: return version == 1 ? 2 : 4;
    case LimitSending:
    case LimitReceiving: return 8;
    case Finish: return 0;
    default: return 4;
    }
}

inline Bytes encoding(const Frame &frame, uint32_t version) {
    Bytes bytes = {uint8_t(16 * frame.kind + frame.channel)};
    for (size_t left = width(frame.kind, version); left > 0; left--)
        bytes.push_back(uint8_t(frame.number >> 8 * (left - 1)));
    bytes.insert(bytes.end(), frame.body.begin(), frame.body.end());
    return bytes;
}

/* The result of parsing the front of some bytes: a code of F1 to F3 or 0, and after how many bytes it is known; a
 * length of 0 if more bytes are needed; and the frame, if it is whole. */
struct Front {
    uint32_t fault;
    size_t length;
    Frame frame;
};

inline uint32_t number_fault(Kind kind, uint64_t number, uint32_t version) {
    if (kind == Send && number == 0)
        return LCMUX_F2_ZERO_LENGTH;
    uint64_t least = kind == Issue || kind == Absolve, most = most_held;
    if (kind == Send)
        most = most_body(version);
    if (kind == LimitSending || kind == LimitReceiving)
        most = most_total;
    return number < least || number > most ? LCMUX_F3_BAD_NUMBER : LCMUX_OK;
}

inline Front front(const uint8_t *at, size_t len, uint32_t version) {
    if (len == 0)
        return {LCMUX_OK, 0, {}};
    uint32_t kind = *at >> 4, channel = *at & 15;
    if (kind < Send || kind > (version == 1 ? LimitReceiving : Finish) || channel >= channels)
        return {LCMUX_F1_BAD_TAG, 1, {}};
    Frame frame = {Kind(kind), channel, 0, {}};
    size_t head = 1 + width(frame.kind, version);
    if (len < head)
        return {LCMUX_OK, 0, {}};
    for (size_t k = 1; k < head; k++)
        frame.number = frame.number << 8 | at[k];
    if (uint32_t fault = frame.kind == Finish ? LCMUX_OK : number_fault(frame.kind, frame.number, version))
        return {fault, head, {}};
    size_t body = frame.kind == Send ? frame.number : 0;
    if (len - head < body)
        return {LCMUX_OK, 0, {}};
    frame.body.assign(at + head, at + head + body);
    return {LCMUX_OK, head + body, frame};
}

/* The sums contribute no coverage, and without instrumentation they are fast. */
#if defined(__clang__)
#define LCMUX_UNTRACED __attribute__((no_sanitize("coverage")))
#else
#define LCMUX_UNTRACED
#endif

LCMUX_UNTRACED inline uint64_t sum(const Frames &frames, Kind kind) {
    uint64_t all = 0;
    for (const Frame &frame : frames)
        all += frame.kind == kind ? frame.number : 0;
    return all;
}

LCMUX_UNTRACED inline bool has_finish(const Frames &frames) {
    for (const Frame &frame : frames)
        if (frame.kind == Finish)
            return true;
    return false;
}

/* What the last limit of a kind allows, or LCMUX_NONE, which is above every number. A limit counts the frames after
 * it. */
LCMUX_UNTRACED inline uint64_t left_of(const Frames &frames, Kind limit, Kind counted) {
    uint64_t left = LCMUX_NONE;
    for (const Frame &frame : frames) {
        if (frame.kind == limit)
            left = frame.number;
        if (frame.kind == counted && left != LCMUX_NONE)
            left -= frame.number;
    }
    return left;
}

/* All frames of one channel that a peer sent, and all that arrived at it; how many messages were taken, and the
 * target of the pending plead. */
struct Channel {
    uint64_t capacity;
    Frames put, arrived;
    size_t taken = 0;
    uint64_t asked = LCMUX_NONE;

    lcmux_client client() const {
        lcmux_client book = LCMUX_CLIENT_INIT;
        book.received = sum(arrived, Issue);
        book.spent = sum(put, Send);
        book.absolved = sum(put, Absolve);
        book.finished = has_finish(put);
        uint64_t rest = book.received - book.spent - book.absolved;
        (book.finished ? book.waived : book.held) = rest;
        book.send_left = left_of(put, LimitSending, Send);
        book.receive_left = left_of(arrived, LimitReceiving, Issue);
        book.asked = asked;
        return book;
    }

    lcmux_server server() const {
        lcmux_server book = LCMUX_SERVER_INIT;
        book.capacity = capacity;
        book.issued = sum(put, Issue);
        book.finished = has_finish(arrived);
        book.received = sum(arrived, Send);
        book.absolved = sum(arrived, Absolve);
        uint64_t rest = book.issued - book.received - book.absolved;
        (book.finished ? book.waived : book.outstanding) = rest;
        for (const Frame *message : waiting())
            book.buffered += message->number;
        book.taken = book.received - book.buffered;
        book.room = capacity - book.outstanding - book.buffered;
        book.send_left = left_of(arrived, LimitSending, Send);
        book.receive_left = left_of(put, LimitReceiving, Issue);
        return book;
    }

    /* The messages that arrived and were not taken. */
    LCMUX_UNTRACED std::vector<const Frame *> waiting() const {
        std::vector<const Frame *> messages;
        for (const Frame &frame : arrived)
            if (frame.kind == Send)
                messages.push_back(&frame);
        messages.erase(messages.begin(), messages.begin() + long(taken));
        return messages;
    }

    lcmux_channel_ready ready() const {
        uint32_t front = front_len().code;
        lcmux_client client = this->client();
        return {front == LCMUX_OK, front == LCMUX_ENDED, client.asked != LCMUX_NONE, client.finished, server().finished};
    }

    lcmux_answer front_len() const {
        auto messages = waiting();
        if (!messages.empty())
            return {LCMUX_OK, messages[0]->number};
        bool ended = has_finish(arrived) || left_of(arrived, LimitSending, Send) == 0;
        return {ended ? LCMUX_ENDED : LCMUX_EMPTY, 0};
    }
};

inline bool is_of_client(Kind kind) {
    return kind == Send || kind == Absolve || kind == LimitSending || kind == Finish;
}

inline lcmux_answer refused_if(bool refused, uint32_t code, uint64_t number) {
    return refused ? lcmux_answer{code, number} : lcmux_answer{LCMUX_OK, 0};
}

inline lcmux_answer limit_refusal(uint64_t left, uint64_t bound) {
    if (bound > most_total)
        return {LCMUX_BOUND_TOO_LARGE, 0};
    return refused_if(bound > left, LCMUX_LIMIT_RAISED, left);
}

inline lcmux_answer send_refusal(const lcmux_client &book, uint64_t len, uint32_t version) {
    if (len == 0)
        return {LCMUX_EMPTY_BODY, 0};
    if (len > most_body(version))
        return {LCMUX_BODY_TOO_LONG, 0};
    if (len > book.send_left)
        return {LCMUX_PAST_SEND_LIMIT, book.send_left};
    return refused_if(len > book.held, LCMUX_NO_GUARANTEE, book.held);
}

inline lcmux_answer issue_refusal(const lcmux_server &book, uint64_t amount) {
    if (amount == 0)
        return {LCMUX_ZERO_AMOUNT, 0};
    if (amount > book.receive_left)
        return {LCMUX_PAST_RECEIVE_LIMIT, book.receive_left};
    if (amount > book.room)
        return {LCMUX_NO_ROOM, book.room};
    return refused_if(book.issued + amount > most_total, LCMUX_TOTAL_REACHED, 0);
}

/* Why the ledgers of a channel refuse a local operation: the first reason that applies, in the order of the rows. */
inline lcmux_answer refusal(const Channel &channel, const Frame &frame, uint32_t version) {
    lcmux_client client = channel.client();
    lcmux_server server = channel.server();
    if (frame.kind == Finish && version == 1)
        return {LCMUX_WRONG_VERSION, 0};
    if (is_of_client(frame.kind) ? client.finished : server.finished)
        return {LCMUX_CHANNEL_FINISHED, 0};
    switch (frame.kind) {
    case Send: return send_refusal(client, frame.number, version);
    case Issue: return issue_refusal(server, frame.number);
    case LimitSending: return limit_refusal(client.send_left, frame.number);
    case LimitReceiving: return limit_refusal(server.receive_left, frame.number);
    case Absolve:
        if (frame.number == 0)
            return {LCMUX_ZERO_AMOUNT, 0};
        return refused_if(frame.number > client.held, LCMUX_NOT_HELD, client.held);
    case Plead: return refused_if(frame.number >= server.outstanding, LCMUX_NOTHING_TO_ASK, server.outstanding);
    case Finish: break;
    }
    return {LCMUX_OK, 0};
}

/* The rule that an inbound frame breaks: the first that applies, in the order of the rows. */
inline uint32_t violation(const Channel &channel, const Frame &frame) {
    lcmux_client client = channel.client();
    lcmux_server server = channel.server();
    uint64_t number = frame.number;
    if (is_of_client(frame.kind) && server.finished)
        return LCMUX_V9_AFTER_FINISH;
    switch (frame.kind) {
    case Send:
        if (number > server.outstanding)
            return LCMUX_V1_NOT_GUARANTEED;
        return number > server.send_left ? LCMUX_V2_SENT_PAST_LIMIT : LCMUX_OK;
    case Issue:
        if (number > client.receive_left)
            return LCMUX_V5_ISSUED_PAST_LIMIT;
        if (client.held + number > most_held)
            return LCMUX_V6_TOO_MANY_GUARANTEES;
        return client.received + number > most_total ? LCMUX_V8_TOTAL_PASSED : LCMUX_OK;
    case Absolve: return number > server.outstanding ? LCMUX_V3_ABSOLVED_TOO_MUCH : LCMUX_OK;
    case LimitSending: return number > server.send_left ? LCMUX_V4_SEND_LIMIT_RAISED : LCMUX_OK;
    case LimitReceiving: return number > client.receive_left ? LCMUX_V7_RECEIVE_LIMIT_RAISED : LCMUX_OK;
    default: return LCMUX_OK;
    }
}

struct Peer {
    uint32_t version;
    size_t slots;
    std::vector<Channel> channels;
    /* All bytes of the outbound stream with its preface, how many of them were written, and the offset of each
     * frame's first byte: a frame is pending until that byte is written. */
    Bytes text;
    size_t written;
    std::vector<size_t> starts;
    std::vector<bool> are_sends;
    /* The version of the inbound stream, 0 while it is unknown; the bytes after its last whole frame; and its
     * protocol error. */
    uint32_t incoming;
    Bytes rest;
    uint32_t stop;

    explicit Peer(const lcmux_config &config) : version(config.version), slots(config.slots), written(0), incoming(0), stop(LCMUX_OK) {
        for (uint32_t capacity : config.capacities)
            channels.push_back({capacity, {}, {}});
        if (version == 2)
            text.assign(std::begin(greeting), std::end(greeting));
    }

    size_t waiting() const {
        return size_t(starts.end() - std::lower_bound(starts.begin(), starts.end(), written));
    }

    size_t sends_waiting() const {
        return size_t(std::count(are_sends.end() - long(waiting()), are_sends.end(), true));
    }

    bool is_full() const {
        return waiting() >= slots;
    }

    size_t pending() const {
        return text.size() - written;
    }

    /* The size of the next frame, 0 if none is pending or the one before is written in part. */
    size_t next_len() const {
        auto next = std::lower_bound(starts.begin(), starts.end(), written);
        if (next == starts.end() || *next != written)
            return 0;
        auto behind = next + 1;
        return (behind == starts.end() ? text.size() : *behind) - written;
    }

    void put(Frame frame) {
        Bytes bytes = encoding(frame, version);
        starts.push_back(text.size());
        are_sends.push_back(frame.kind == Send);
        text.insert(text.end(), bytes.begin(), bytes.end());
        frame.body.clear();
        Channel &channel = channels[frame.channel];
        if (frame.kind == Finish)
            channel.asked = LCMUX_NONE;
        channel.put.push_back(frame);
    }

    /* The result of a local operation, apart from a failed allocation. */
    lcmux_answer would(const Frame &frame) const {
        lcmux_answer judged = refusal(channels[frame.channel], frame, version);
        return judged.code == LCMUX_OK && is_full() ? lcmux_answer{LCMUX_QUEUE_FULL, 0} : judged;
    }

    /* What a message needs before it can be sent: guarantees that the receiver may not issue never arrive. */
    lcmux_answer needs(const Frame &message) const {
        lcmux_answer judged = would(message);
        uint64_t missing = message.number - judged.number;
        if (judged.code == LCMUX_NO_GUARANTEE && missing <= channels[message.channel].client().receive_left)
            return {LCMUX_NO_GUARANTEE, missing};
        if (judged.code != LCMUX_OK && judged.code != LCMUX_QUEUE_FULL)
            return {LCMUX_NEVER, 0};
        return judged;
    }

    lcmux_answer would_honour(uint32_t at) const {
        return Peer(*this).honour(at);
    }

    /* A local operation. Only a send that its ledger allows allocates memory, before it needs a slot. */
    lcmux_answer own(const Frame &frame, bool has_memory) {
        lcmux_answer judged = refusal(channels[frame.channel], frame, version);
        if (judged.code != LCMUX_OK)
            return judged;
        if (frame.kind == Send && !has_memory)
            return {LCMUX_OUT_OF_MEMORY, 0};
        if (is_full())
            return {LCMUX_QUEUE_FULL, 0};
        put(frame);
        return {LCMUX_OK, 0};
    }

    lcmux_answer honour(uint32_t at) {
        Channel &channel = channels[at];
        lcmux_client book = channel.client();
        uint64_t due = book.held > book.asked ? book.held - book.asked : 0;
        if (book.finished)
            return {LCMUX_CHANNEL_FINISHED, 0};
        if (due > 0 && is_full())
            return {LCMUX_QUEUE_FULL, 0};
        channel.asked = LCMUX_NONE;
        if (due > 0)
            put({Absolve, at, due, {}});
        return {LCMUX_OK, due};
    }

    void arrive(const Frame &frame) {
        Channel &channel = channels[frame.channel];
        channel.arrived.push_back(frame);
        if (frame.kind == Plead && !has_finish(channel.put))
            channel.asked = frame.number;
    }

    /* At the start of the inbound stream: the length of its preface, or its fault. */
    Front greet() {
        if (rest.empty() || incoming != 0)
            return {LCMUX_OK, 0, {}};
        for (size_t k = 0; k < std::min(rest.size(), sizeof greeting); k++) {
            if (rest[k] != greeting[k] && k > 0)
                return {LCMUX_F1_BAD_TAG, k + 1, {}};
            if (rest[k] != greeting[k]) {
                incoming = 1;
                return {LCMUX_OK, 0, {}};
            }
        }
        if (rest.size() < sizeof greeting)
            return {LCMUX_OK, 0, {}};
        incoming = 2;
        return {LCMUX_OK, sizeof greeting, {}};
    }

    lcmux_delivery deliver(const Bytes &piece) {
        if (stop != LCMUX_OK)
            return {stop, 0, 0};
        size_t before = rest.size(), at = 0;
        uint64_t frames = 0;
        rest.insert(rest.end(), piece.begin(), piece.end());
        Front next = greet();
        while (next.fault == LCMUX_OK && incoming != 0) {
            at += next.length;
            next = front(rest.data() + at, rest.size() - at, incoming);
            if (next.length == 0)
                break;
            if (next.fault == LCMUX_OK)
                next.fault = violation(channels[next.frame.channel], next.frame);
            if (next.fault != LCMUX_OK)
                break;
            arrive(next.frame);
            frames++;
        }
        stop = next.fault;
        if (stop != LCMUX_OK)
            return {stop, at + next.length - before, frames};
        rest.erase(rest.begin(), rest.begin() + long(at));
        return {LCMUX_OK, piece.size(), frames};
    }

    uint32_t end() const {
        if (stop != LCMUX_OK)
            return stop;
        return rest.empty() ? LCMUX_OK : LCMUX_F4_TRUNCATED;
    }
};

/* The result of lcmux_peer_new if no allocation fails. */
inline lcmux_answer config_answer(const lcmux_config &config) {
    if (config.version != 1 && config.version != 2)
        return {LCMUX_BAD_VERSION, 0};
    for (uint32_t c = 0; c < channels; c++)
        if (config.capacities[c] < 1 || config.capacities[c] > most_held)
            return {LCMUX_BAD_CAPACITY, c};
    return {config.slots < 1 || config.slots > 65536 ? LCMUX_BAD_SLOTS : LCMUX_OK, 0};
}

} // namespace model

#endif
