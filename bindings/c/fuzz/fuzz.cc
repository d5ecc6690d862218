/* Reads calls from the input bytes, executes them on three peers and on the model of the rules, and compares all
 * results after each call. A and B read each other's streams, cut anywhere; the stream of C is generated. The program
 * has its own heap, which refuses requests and tracks each block. */
#include "lcmux.h"
#include "model.h"
#include "watch.h"

#include <cstring>
#include <iterator>
#include <optional>
#include <random>

using model::Bytes;
using model::Frame;
using model::Kind;

namespace {

constexpr uint64_t extremes[] = {
    0, 1, 255, 256, 65534, 65535, 65536, 65537, (1 << 20) - 1, 1 << 20, (1 << 20) + 1, (1 << 24) - 1,
    1 << 24, (1 << 24) + 1, UINT32_MAX, (UINT64_C(1) << 62) - 1, UINT64_C(1) << 62, (UINT64_C(1) << 62) + 1, UINT64_MAX,
};
constexpr uint32_t codes[] = {
    /* codes: begin codes */
    0, 1, 2, 3, 4, 5, 6, 7, 8, 9, 10, 11, 12, 13, 14, 15, 16, 17, 32, 33, 34, 35, 36, 37, 38, 39, 48, 49, 50, 51,
    52, 53, 64, 65, 66, 67, 68, 101, 102, 103, 104, 105, 106, 107, 108, 109, 201, 202, 203, 204,
    /* codes: end */
};
constexpr size_t longest = (1 << 20) + 1, blocks_of_a_peer = 18, many = 300;

/* The bytes of all bodies, each a prefix at its own offset. */
const uint8_t *body_of(uint64_t serial) {
    static const Bytes all = [] {
        Bytes bytes(longest + 256);
        std::minstd_rand random(1);
        for (uint8_t &byte : bytes)
            byte = uint8_t(random() >> 8);
        return bytes;
    }();
    return all.data() + serial % 256;
}

/* The bytes of the input, followed by zeros. */
class Input {
public:
    Input(const uint8_t *at, size_t left) : at(at), left(left) {}

    bool is_over() const {
        return left == 0;
    }

    uint8_t byte() {
        if (left == 0)
            return 0;
        left--;
        return *at++;
    }

private:
    const uint8_t *at;
    size_t left;
};

uint64_t extreme(uint8_t byte) {
    return extremes[byte % std::size(extremes)];
}

/* A number, usually a small one or one near this limit. */
uint64_t number_about(uint64_t limit, uint8_t how, uint8_t byte) {
    switch (how % 16) {
    case 0: return limit + 1;
    case 1: return limit - 1;
    case 2: return limit / 2;
    case 3: return limit - byte % 8;
    case 4: return byte;
    case 5: return extreme(byte);
    case 6:
    case 7:
    case 8: return limit;
    default: return byte % 12;
    }
}

/* What an unset limit allows. */
uint64_t left_or(uint64_t left, uint64_t most) {
    return std::min(left, most);
}

struct Side {
    lcmux_peer peer = LCMUX_PEER_EMPTY;
    std::optional<model::Peer> model;
    /* The inbound bytes that were not delivered, and the version of a generated stream. */
    Bytes wire;
    uint32_t made_up = 0;
};

class Play {
public:
    explicit Play(Input &input) : input(input) {
        uint8_t traits = input.byte();
        hostile = traits % 8 == 0;
        cut = traits / 8 % 4 == 0 ? 1 + traits / 32 % 4 : SIZE_MAX;
        for (size_t me = 0; me < 3; me++)
            make(me, config(), 0);
    }

    void run() {
        while (!input.is_over() && !flooded) {
            uint8_t what = input.byte(), where = input.byte(), how = input.byte(), byte = input.byte();
            size_t me = size_t("AAABBBCC"[what / 32] - 'A');
            step(what % 32, me, channel_of(where), how, byte);
            compare(me);
        }
        if (!hostile && !flooded)
            settle();
        for (size_t me = 0; me < 3; me++)
            release(me);
    }

private:
    Input &input;
    Side sides[3];
    bool hostile, flooded = false;
    size_t cut;
    uint32_t special = 0;
    uint64_t serial = 0;

    uint32_t channel_of(uint8_t where) const {
        constexpr uint32_t beyond[] = {model::channels, 8, 256, UINT32_MAX};
        if (where % 32 == 0)
            return beyond[where / 64];
        if (where % 32 < 5)
            return special;
        return where % 32 < 8 ? where / 32 % model::channels : 1;
    }

    lcmux_config config() {
        uint8_t traits = input.byte(), slots = input.byte(), size = input.byte(), other = input.byte();
        lcmux_config config = {1u + traits % 2, 1u + slots % 8, {}};
        if (slots >= 128)
            config.slots = slots >= 252 ? 65536 : slots;
        for (uint32_t &capacity : config.capacities)
            capacity = 1 + size % 64;
        special = traits / 2 % model::channels;
        if (other >= 128)
            config.capacities[special] = uint32_t(std::clamp(extreme(other), UINT64_C(1), model::most_held));
        return config;
    }

    /* Each field of the configuration out of its range, and some combinations. */
    lcmux_config bad_config(uint8_t how, uint8_t byte) {
        constexpr uint32_t bad[] = {0, (1 << 24) + 1, UINT32_MAX};
        lcmux_config config = this->config();
        if (how & 1)
            config.version = byte % 2 ? 0 : 3;
        if (how & 2)
            config.capacities[byte % model::channels] = bad[byte % 3];
        if (how & 4)
            config.capacities[byte / 7 % model::channels] = bad[byte / 7 % 3];
        if (how & 8)
            config.slots = byte % 2 ? 0 : 65537;
        return config;
    }

    void note(const char *name, size_t me, uint32_t channel, uint64_t number) {
        calls.push_back({name, me, channel, number});
        heap.requests = 0;
    }

    void answers(lcmux_answer got, lcmux_answer want, size_t requests = 0) {
        same("the code", got.code, want.code);
        same("the number", got.number, want.number);
        same("the requests for memory", heap.requests, requests);
        heap.requests = heap.refused = 0;
    }

    /* The code for an empty handle or a bad channel, if either applies. */
    uint32_t barred(size_t me, uint32_t channel) const {
        if (!sides[me].model)
            return LCMUX_NO_PEER;
        return channel < model::channels ? LCMUX_OK : LCMUX_NO_CHANNEL;
    }

    void make(size_t me, const lcmux_config &config, size_t refused) {
        Side &side = sides[me];
        lcmux_answer want = model::config_answer(config);
        if (side.model)
            want = {LCMUX_HAS_PEER, 0};
        note("new", me, config.version, config.slots);
        heap.refused = refused;
        size_t requests = want.code != LCMUX_OK ? 0 : refused > 0 ? refused : blocks_of_a_peer;
        if (requests > 0 && refused > 0)
            want = {LCMUX_OUT_OF_MEMORY, 0};
        answers(lcmux_peer_new(&config, &side.peer), want, requests);
        if (want.code == LCMUX_OK) {
            side.model.emplace(config);
            side.wire.clear();
            side.made_up = 0;
        }
        compare(me);
    }

    void release(size_t me) {
        Side &side = sides[me];
        uint32_t code = barred(me, 0);
        note("free", me, 0, 0);
        answers(lcmux_peer_free(&side.peer), {code, 0});
        same("the mark of the handle", side.peer.mark, 0);
        side.model.reset();
        compare(me);
    }

    /* The results of all queries of a peer. */
    void compare(size_t me) {
        Side &side = sides[me];
        uint32_t code = barred(me, 0);
        size_t blocks = 0;
        for (const Side &it : sides)
            blocks += it.model ? blocks_of_a_peer + it.model->sends_waiting() : 0;
        same("the blocks of memory", heap.live, blocks);
        answers(lcmux_peer_pending(&side.peer), {code, code ? 0 : side.model->pending()});
        answers(lcmux_peer_end(&side.peer), {code ? code : side.model->end(), 0});
        answers(lcmux_peer_slots_left(&side.peer), {code, code ? 0 : side.model->slots - side.model->waiting()});
        answers(lcmux_peer_wants_write(&side.peer), {code, !code && side.model->pending() > 0});
        next(me);
        ready(me);
        for (uint32_t c = 0; c < model::channels; c++) {
            answers(lcmux_peer_front_len(&side.peer, c), code ? lcmux_answer{code, 0} : side.model->channels[c].front_len());
            front(me, c);
            books(me, c);
        }
    }

    /* The borrowed message is the first one. */
    void front(size_t me, uint32_t channel) {
        uint32_t code = barred(me, channel);
        lcmux_answer want = code ? lcmux_answer{code, 0} : sides[me].model->channels[channel].front_len();
        lcmux_front front = {{nullptr, 1}, {nullptr, 1}};
        answers(lcmux_peer_front(&sides[me].peer, channel, &front), want);
        same("the length of what is lent", front.first.len + front.rest.len, want.number);
        if (want.code != LCMUX_OK)
            return;
        const uint8_t *body = sides[me].model->channels[channel].waiting()[0]->body.data();
        same("the first piece", memcmp(front.first.bytes, body, front.first.len), 0);
        same("the rest", memcmp(front.rest.bytes, body + front.first.len, front.rest.len), 0);
    }

    void ready(size_t me) {
        constexpr const char *names[] = {"a message", "an end", "a plead", "a Finish of this side", "a Finish of the other side"};
        uint32_t code = barred(me, 0);
        lcmux_ready ready = LCMUX_READY_INIT;
        for (lcmux_channel_ready &on : ready.channels)
            on = {1, 2, 3, 4, 5};
        answers(lcmux_peer_ready(&sides[me].peer, &ready), {code, 0});
        for (uint32_t c = 0; c < model::channels; c++)
            same_fields(ready.channels[c], code ? lcmux_channel_ready{1, 2, 3, 4, 5} : sides[me].model->channels[c].ready(), names);
    }

    void books(size_t me, uint32_t channel) {
        constexpr const char *of_client[] = {"size", "held", "received", "spent", "absolved", "waived", "send_left", "receive_left", "asked", "finished"};
        constexpr const char *of_server[] = {"size", "capacity", "issued", "received", "taken", "absolved", "outstanding", "buffered", "room", "waived", "send_left", "receive_left", "finished"};
        uint32_t code = barred(me, channel);
        lcmux_client client = {sizeof client, 1, 2, 3, 4, 5, 6, 7, 8, 9}, want_client = client;
        lcmux_server server = {sizeof server, 1, 2, 3, 4, 5, 6, 7, 8, 9, 10, 11, 12}, want_server = server;
        if (code == LCMUX_OK) {
            want_client = sides[me].model->channels[channel].client();
            want_server = sides[me].model->channels[channel].server();
        }
        answers(lcmux_peer_client(&sides[me].peer, channel, &client), {code, 0});
        same_fields(client, want_client, of_client);
        answers(lcmux_peer_server(&sides[me].peer, channel, &server), {code, 0});
        same_fields(server, want_server, of_server);
    }

    template <class Fields, size_t N> void same_fields(const Fields &got, const Fields &want, const char *const (&names)[N]) {
        uint64_t fields[2][N];
        static_assert(sizeof got == sizeof *fields);
        memcpy(fields[0], &got, sizeof got);
        memcpy(fields[1], &want, sizeof want);
        for (size_t k = 0; k < N; k++)
            same(names[k], fields[0][k], fields[1][k]);
    }

    void step(uint8_t what, size_t me, uint32_t channel, uint8_t how, uint8_t byte) {
        constexpr Kind own_kinds[] = {
            model::Send, model::Send, model::Send, model::Send, model::Send, model::Issue, model::Issue, model::Issue,
            model::Issue, model::Issue, model::Absolve, model::Plead, model::LimitSending, model::LimitReceiving,
        };
        if (what < std::size(own_kinds))
            return own(own_kinds[what], me, channel, how, byte);
        switch (what) {
        case 14: return how % 8 == 0 ? own(model::Finish, me, channel, how, byte) : honour(me, channel);
        case 15: return honour(me, channel);
        case 16:
        case 17:
        case 18: return how % 2 ? sent(me) : write(me, room_about(me, how, byte));
        case 19:
        case 20:
        case 21:
        case 22: return deliver(me, number_about(sides[me].wire.size(), how, byte));
        case 23:
        case 24:
        case 25: return take(me, channel, how, byte);
        case 26:
        case 27:
        case 28: return craft(hostile ? me : 2, channel, what == 28, how, byte);
        case 29: return carry();
        case 30: return text(how % 4 ? codes[byte % std::size(codes)] : uint32_t(extreme(byte)), how / 4);
        default: return rarely(me, channel, how, byte);
        }
    }

    void rarely(size_t me, uint32_t channel, uint8_t how, uint8_t byte) {
        if (how % 8 == 0)
            return flood(me, channel);
        if (how % 8 == 1)
            return make(me, config(), 0);
        if (!hostile)
            me = 2;
        if (sides[me].model)
            return release(me);
        if (how % 8 < 4)
            return make(me, bad_config(how / 8, byte), 0);
        make(me, config(), how % 8 < 6 ? 1 + byte % blocks_of_a_peer : 0);
    }

    /* The largest argument of a call of this kind, by one of its rules. */
    uint64_t own_limit(Kind kind, size_t me, uint32_t channel, uint8_t byte) const {
        if (barred(me, channel) != LCMUX_OK)
            return byte;
        const model::Channel &at = sides[me].model->channels[channel];
        lcmux_client client = at.client();
        lcmux_server server = at.server();
        switch (kind) {
        case model::Send: return byte % 4 ? client.held : left_or(client.send_left, model::most_body(sides[me].model->version));
        case model::Issue: return byte % 4 ? server.room : left_or(server.receive_left, server.room);
        case model::Absolve: return client.held;
        case model::Plead: return server.outstanding;
        case model::LimitSending: return left_or(client.send_left, byte % 2 ? model::most_total : 64 + client.held);
        case model::LimitReceiving: return left_or(server.receive_left, byte % 2 ? model::most_total : 64 + server.room);
        case model::Finish: return 0;
        }
        return 0;
    }

    void own(Kind kind, size_t me, uint32_t channel, uint8_t how, uint8_t byte) {
        uint64_t number = number_about(own_limit(kind, me, channel, byte), how, byte);
        bool is_limit = kind == model::LimitSending || kind == model::LimitReceiving;
        if (kind == model::Send)
            number = std::min(number, uint64_t(longest));
        if (!is_limit)
            number = kind == model::Finish ? 0 : uint32_t(number);
        put({kind, channel, number, {}}, me, how >= 240);
    }

    void put(Frame frame, size_t me, bool refused) {
        const uint8_t *body = body_of(serial++);
        Side &side = sides[me];
        lcmux_answer want = {barred(me, frame.channel), 0};
        if (frame.kind == model::Send)
            frame.body.assign(body, body + frame.number);
        ask(frame, me);
        if (want.code == LCMUX_OK)
            want = side.model->own(frame, !refused);
        bool asks = want.code == LCMUX_OK || want.code == LCMUX_OUT_OF_MEMORY || want.code == LCMUX_QUEUE_FULL;
        answers(call(frame, me, body, refused), want, frame.kind == model::Send && asks);
    }

    /* The result of the would-call, and what a message needs. */
    void ask(const Frame &frame, size_t me) {
        uint32_t code = barred(me, frame.channel);
        note("would", me, frame.channel, frame.number);
        answers(would(frame, &sides[me].peer), code ? lcmux_answer{code, 0} : sides[me].model->would(frame));
        if (frame.kind == model::Send)
            answers(lcmux_peer_needs(&sides[me].peer, frame.channel, frame.number), code ? lcmux_answer{code, 0} : sides[me].model->needs(frame));
    }

    lcmux_answer would(const Frame &frame, lcmux_peer *peer) {
        uint32_t c = frame.channel, amount = uint32_t(frame.number);
        switch (frame.kind) {
        case model::Send: return lcmux_peer_would_send(peer, c, frame.number);
        case model::Issue: return lcmux_peer_would_issue(peer, c, amount);
        case model::Absolve: return lcmux_peer_would_absolve(peer, c, amount);
        case model::Plead: return lcmux_peer_would_plead(peer, c, amount);
        case model::LimitSending: return lcmux_peer_would_limit_sending(peer, c, frame.number);
        case model::LimitReceiving: return lcmux_peer_would_limit_receiving(peer, c, frame.number);
        case model::Finish: return lcmux_peer_would_finish(peer, c);
        }
        return {};
    }

    lcmux_answer call(const Frame &frame, size_t me, const uint8_t *body, bool refused) {
        constexpr const char *names[] = {"", "send", "issue", "absolve", "plead", "limit-sending", "limit-receiving", "finish"};
        lcmux_peer *peer = &sides[me].peer;
        uint32_t c = frame.channel, amount = uint32_t(frame.number);
        note(names[frame.kind], me, c, frame.number);
        heap.refused = refused;
        switch (frame.kind) {
        case model::Send: return lcmux_peer_send(peer, c, body, frame.number);
        case model::Issue: return lcmux_peer_issue(peer, c, amount);
        case model::Absolve: return lcmux_peer_absolve(peer, c, amount);
        case model::Plead: return lcmux_peer_plead(peer, c, amount);
        case model::LimitSending: return lcmux_peer_limit_sending(peer, c, frame.number);
        case model::LimitReceiving: return lcmux_peer_limit_receiving(peer, c, frame.number);
        case model::Finish: return lcmux_peer_finish(peer, c);
        }
        return {};
    }

    void honour(size_t me, uint32_t channel) {
        lcmux_answer want = {barred(me, channel), 0};
        note("honour", me, channel, 0);
        answers(lcmux_peer_would_honour(&sides[me].peer, channel), want.code ? want : sides[me].model->would_honour(channel));
        if (want.code == LCMUX_OK)
            want = sides[me].model->honour(channel);
        answers(lcmux_peer_honour(&sides[me].peer, channel), want);
    }

    uint64_t room_about(size_t me, uint8_t how, uint8_t byte) const {
        uint64_t pending = sides[me].model ? sides[me].model->pending() : 4;
        return std::min(number_about(pending, how, byte), pending + 64);
    }

    void write(size_t me, size_t room) {
        Side &side = sides[me];
        uint32_t code = barred(me, 0);
        size_t count = code ? 0 : std::min(room, side.model->pending());
        Buffer buffer(room);
        note("write", me, 0, room);
        answers(lcmux_peer_write(&side.peer, buffer.data(), room), {code, count});
        if (code)
            return buffer.must_be(nullptr, 0);
        buffer.must_be(side.model->text.data() + side.model->written, count);
        written(me, count);
    }

    void written(size_t me, size_t count) {
        model::Peer &model = *sides[me].model;
        const uint8_t *bytes = model.text.data() + model.written;
        model.written += count;
        if (me < 2)
            sides[1 - me].wire.insert(sides[1 - me].wire.end(), bytes, bytes + count);
    }

    /* The results of the calls about the next outbound frame. */
    lcmux_answer about_next(size_t me) const {
        uint32_t code = barred(me, 0);
        size_t count = code ? 0 : sides[me].model->next_len();
        return {code ? code : count ? LCMUX_OK : LCMUX_EMPTY, count};
    }

    /* The borrowed frame is the next one. */
    void next(size_t me) {
        lcmux_answer want = about_next(me);
        lcmux_next next = {{}, 10, {nullptr, 1}};
        answers(lcmux_peer_next(&sides[me].peer, &next), want);
        same("the length of what is lent", next.header_len + next.message.len, want.number);
        if (want.code != LCMUX_OK)
            return;
        const uint8_t *bytes = sides[me].model->text.data() + sides[me].model->written;
        same("the header", memcmp(next.header, bytes, next.header_len), 0);
        same("the message", memcmp(next.message.bytes, bytes + next.header_len, next.message.len), 0);
    }

    void sent(size_t me) {
        lcmux_answer want = about_next(me);
        note("sent", me, 0, 0);
        answers(lcmux_peer_sent(&sides[me].peer), want);
        if (want.code == LCMUX_OK)
            written(me, want.number);
    }

    /* Delivers the next inbound bytes, in short chunks if this run cuts the stream so. */
    void deliver(size_t me, uint64_t count) {
        Bytes &wire = sides[me].wire;
        count = std::min(count, uint64_t(wire.size()));
        Bytes bytes(wire.begin(), wire.begin() + long(count));
        wire.erase(wire.begin(), wire.begin() + long(count));
        size_t at = 0, most = count < many ? cut : SIZE_MAX;
        do {
            size_t len = std::min(most, bytes.size() - at);
            deliver_piece(me, Bytes(bytes.data() + at, bytes.data() + at + len));
            at += len;
        } while (at < bytes.size());
    }

    void deliver_piece(size_t me, const Bytes &piece) {
        Side &side = sides[me];
        note("deliver", me, 0, piece.size());
        lcmux_delivery got = lcmux_peer_deliver(&side.peer, piece.empty() ? nullptr : piece.data(), piece.size());
        lcmux_delivery want = side.model ? side.model->deliver(piece) : lcmux_delivery{LCMUX_NO_PEER, 0, 0};
        answers({got.code, got.frames}, {want.code, want.frames});
        same("how much is taken", got.taken, want.taken);
        if (me < 2 && !hostile)
            same("the code between two that keep the rules", got.code, LCMUX_OK);
        compare(me);
    }

    void pop(size_t me, uint32_t channel) {
        uint32_t code = barred(me, channel);
        lcmux_answer want = code ? lcmux_answer{code, 0} : sides[me].model->channels[channel].front_len();
        note("pop", me, channel, want.number);
        answers(lcmux_peer_pop(&sides[me].peer, channel), want);
        if (want.code == LCMUX_OK)
            sides[me].model->channels[channel].taken++;
    }

    void take(size_t me, uint32_t channel, uint8_t how, uint8_t byte) {
        if (how % 4 == 3)
            return pop(me, channel);
        uint32_t code = barred(me, channel);
        lcmux_answer want = code ? lcmux_answer{code, 0} : sides[me].model->channels[channel].front_len();
        size_t room = std::min(number_about(want.number, how, byte), want.number + 64);
        if (want.code == LCMUX_OK && want.number > room)
            want.code = LCMUX_BUFFER_TOO_SMALL;
        Buffer buffer(room);
        note("take", me, channel, room);
        answers(lcmux_peer_take(&sides[me].peer, channel, buffer.data(), room), want);
        if (want.code != LCMUX_OK)
            return buffer.must_be(nullptr, 0);
        model::Channel &at = sides[me].model->channels[channel];
        buffer.must_be(at.waiting()[0]->body.data(), want.number);
        at.taken++;
    }

    /* The largest number of an inbound frame of this kind. */
    uint64_t craft_limit(Kind kind, const model::Channel &at, uint8_t byte) const {
        lcmux_client client = at.client();
        lcmux_server server = at.server();
        switch (kind) {
        case model::Send: return byte % 4 ? server.outstanding : left_or(server.send_left, server.outstanding);
        case model::Issue: return left_or(client.receive_left, model::most_held - client.held);
        case model::Absolve: return server.outstanding;
        case model::Plead: return byte % 4 ? client.held : model::most_held;
        case model::LimitSending: return left_or(server.send_left, byte % 2 ? model::most_total : 64 + server.outstanding);
        case model::LimitReceiving: return left_or(client.receive_left, byte % 2 ? model::most_total : 64 + client.held);
        case model::Finish: return 0;
        }
        return 0;
    }

    /* Generates the next bytes of a stream: a frame, which keeps the rules unless it is wild, or a byte. */
    void craft(size_t me, uint32_t channel, bool wild, uint8_t how, uint8_t byte) {
        constexpr Kind kinds[] = {
            model::Send, model::Send, model::Send, model::Send, model::Issue, model::Issue, model::Issue, model::Issue,
            model::Absolve, model::Absolve, model::Plead, model::Plead, model::LimitSending, model::LimitReceiving, model::Finish, model::Send,
        };
        Side &side = sides[me];
        if (!side.model || channel >= model::channels)
            return deliver(me, byte);
        greet(side, me, wild, byte);
        Kind kind = kinds[how / 16];
        uint64_t limit = craft_limit(kind, side.model->channels[channel], byte), number = number_about(limit, how, byte);
        if (wild && how / 16 == 15)
            side.wire.push_back(byte);
        else if (wild || (number >= 1 && number <= limit) || (kind == model::Finish && byte % 4 == 0))
            append(side, {kind, channel, number, {}});
        deliver(me, byte % 8 ? SIZE_MAX : number_about(side.wire.size(), how, byte));
    }

    void greet(Side &side, size_t me, bool wild, uint8_t byte) {
        if (side.made_up != 0)
            return;
        side.made_up = me < 2 && sides[1 - me].model ? sides[1 - me].model->version : 1 + byte % 2;
        if (me < 2 || side.made_up == 1)
            return;
        side.wire.assign(std::begin(model::greeting), std::end(model::greeting));
        if (wild)
            side.wire[byte / 2 % 4] ^= byte & 8;
    }

    void append(Side &side, Frame frame) {
        uint64_t len = std::min(frame.number, uint64_t(longest));
        if (frame.kind == model::Send)
            frame.body.assign(body_of(serial), body_of(serial) + len);
        serial++;
        Bytes bytes = model::encoding(frame, side.made_up);
        side.wire.insert(side.wire.end(), bytes.begin(), bytes.end());
    }

    /* Delivers all pending bytes between A and B. */
    void carry() {
        for (size_t me : {0, 1})
            write(me, room_about(me, 8, 0));
        for (size_t me : {0, 1})
            deliver(me, SIZE_MAX);
    }

    void text(uint32_t code, size_t room) {
        bool is_known = std::find(std::begin(codes), std::end(codes), code) != std::end(codes);
        char sentence[64] = "";
        note("text", 0, code, room);
        uint64_t length = lcmux_text(code, sentence, sizeof sentence).number;
        same("the length of the sentence", length, strnlen(sentence, sizeof sentence));
        lcmux_answer want = {LCMUX_NO_CODE, 0};
        if (is_known)
            want = room > length ? lcmux_answer{LCMUX_OK, length} : lcmux_answer{LCMUX_BUFFER_TOO_SMALL, length + 1};
        Buffer buffer(room);
        answers(lcmux_text(code, reinterpret_cast<char *>(buffer.data()), room), want);
        buffer.must_be(reinterpret_cast<uint8_t *>(sentence), want.code == LCMUX_OK ? length + 1 : 0);
    }

    /* Fills the outbound queue, and tries one frame more. The run ends there, since many pending frames are slow. */
    void flood(size_t me, uint32_t channel) {
        if (barred(me, channel) != LCMUX_OK || sides[me].model->channels[channel].client().finished)
            return;
        model::Peer &peer = *sides[me].model;
        uint64_t bound = left_or(peer.channels[channel].client().send_left, model::most_total);
        flooded = peer.slots > many;
        while (!peer.is_full()) {
            peer.put({model::LimitSending, channel, bound, {}});
            if (!flooded)
                note("limit-sending", me, channel, bound);
            answers(lcmux_peer_limit_sending(&sides[me].peer, channel, bound), {LCMUX_OK, 0});
        }
        put({model::LimitSending, channel, bound, {}}, me, false);
    }

    /* Once all bytes have arrived, A and B agree on each channel, and every message is taken. */
    void settle() {
        carry();
        for (size_t me : {0, 1}) {
            for (uint32_t c = 0; c < model::channels; c++) {
                agree(me, c);
                while (sides[me].model->channels[c].front_len().code == LCMUX_OK)
                    take(me, c, 8, 0);
            }
            compare(me);
        }
    }

    void agree(size_t me, uint32_t channel) {
        lcmux_client client = LCMUX_CLIENT_INIT;
        lcmux_server server = LCMUX_SERVER_INIT;
        note("agree", me, channel, 0);
        lcmux_peer_client(&sides[me].peer, channel, &client);
        lcmux_peer_server(&sides[1 - me].peer, channel, &server);
        same("what was received", client.received, server.issued);
        same("what is held", client.held, server.outstanding);
        same("what was spent", client.spent, server.received);
        same("what is absolved", client.absolved, server.absolved);
        same("what is waived", client.waived, server.waived);
        same("what is left to send", client.send_left, server.send_left);
        same("what is left to receive", client.receive_left, server.receive_left);
        same("whether it is finished", client.finished, server.finished);
    }
};

} // namespace

extern "C" size_t LLVMFuzzerMutate(uint8_t *data, size_t size, size_t most);

/* One in four inputs is entirely new and long, so that it gets far. */
extern "C" size_t LLVMFuzzerCustomMutator(uint8_t *data, size_t size, size_t most, unsigned seed) {
    if (seed % 4 != 0 && size > 1)
        return LLVMFuzzerMutate(data, size, most);
    std::minstd_rand random(seed);
    std::generate_n(data, most, [&random] { return uint8_t(random() >> 8); });
    return most;
}

extern "C" int LLVMFuzzerTestOneInput(const uint8_t *data, size_t size) {
    calls.clear();
    Input input(data, size);
    Play(input).run();
    return 0;
}
