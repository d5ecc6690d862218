/* A random walk of two peers, with bytes that are no frames among theirs. Prints a hash of all answers and bytes at
 * each 100,000th step. walk.js makes the same steps over the module, and prints the same. */
#include "lcmux.h"

#include <stdio.h>
#include <stdlib.h>
#include <string.h>

enum { CLIENT = 9, SERVER = 12, FLAGS = 35, WIRE = 1 << 22 };

static uint32_t seed = 2463534242u, hash = 2166136261u;
static lcmux_peer peers[2] = {LCMUX_PEER_EMPTY, LCMUX_PEER_EMPTY};
static uint8_t wires[2][WIRE], buffer[512];
static size_t from[2], to[2];

static uint32_t below(uint32_t most) {
    seed ^= seed << 13;
    seed ^= seed >> 17;
    seed ^= seed << 5;
    return seed % most;
}

static void mix(uint32_t word) { hash = (hash ^ word) * 16777619u; }

static void mix_long(uint64_t number) {
    mix((uint32_t)number);
    mix((uint32_t)(number >> 32));
}

static void mix_longs(const void *from_struct, int count) {
    uint64_t numbers[FLAGS];
    memcpy(numbers, from_struct, (size_t)count * sizeof *numbers);
    for (int at = 0; at < count; at++)
        mix_long(numbers[at]);
}

static void answer(lcmux_answer it) {
    mix(it.code);
    mix_long(it.number);
}

static void anew(void) {
    lcmux_config config = {1 + below(2), 1 + below(40), {0}};
    for (int channel = 0; channel < LCMUX_CHANNELS; channel++)
        config.capacities[channel] = 1 + below(300);
    for (int side = 0; side < 2; side++) {
        lcmux_peer_free(&peers[side]);
        from[side] = to[side] = 0;
        answer(lcmux_peer_new(&config, &peers[side]));
    }
}

static void deliver(lcmux_peer *peer, const uint8_t *bytes, size_t len, size_t *taken) {
    lcmux_delivery it = lcmux_peer_deliver(peer, bytes, len);
    mix(it.code);
    mix_long(it.taken);
    mix_long(it.frames);
    *taken += it.taken;
}

static void own(lcmux_peer *peer, uint32_t kind, uint32_t channel, uint32_t amount) {
    uint64_t bound = (uint64_t)amount << 32 | amount;
    switch (kind) {
    case 0: answer(lcmux_peer_issue(peer, channel, amount)); break;
    case 1: answer(lcmux_peer_absolve(peer, channel, amount)); break;
    case 2: answer(lcmux_peer_plead(peer, channel, amount)); break;
    case 3: answer(lcmux_peer_honour(peer, channel)); break;
    case 4: answer(lcmux_peer_limit_sending(peer, channel, bound)); break;
    case 5: answer(lcmux_peer_limit_receiving(peer, channel, bound)); break;
    case 6: answer(lcmux_peer_finish(peer, channel)); break;
    case 7: answer(lcmux_peer_would_send(peer, channel, amount)); break;
    case 8: answer(lcmux_peer_would_issue(peer, channel, amount)); break;
    case 9: answer(lcmux_peer_would_absolve(peer, channel, amount)); break;
    case 10: answer(lcmux_peer_would_plead(peer, channel, amount)); break;
    case 11: answer(lcmux_peer_would_honour(peer, channel)); break;
    case 12: answer(lcmux_peer_would_limit_sending(peer, channel, bound)); break;
    case 13: answer(lcmux_peer_would_limit_receiving(peer, channel, bound)); break;
    case 14: answer(lcmux_peer_would_finish(peer, channel)); break;
    default: answer(lcmux_peer_needs(peer, channel, amount)); break;
    }
}

static void look(lcmux_peer *peer, uint32_t kind, uint32_t channel) {
    lcmux_client client = LCMUX_CLIENT_INIT;
    lcmux_server server = LCMUX_SERVER_INIT;
    lcmux_ready ready = LCMUX_READY_INIT;
    switch (kind) {
    case 0: answer(lcmux_peer_client(peer, channel, &client)); mix_longs(&client.held, CLIENT); break;
    case 1: answer(lcmux_peer_server(peer, channel, &server)); mix_longs(&server.capacity, SERVER); break;
    case 2: answer(lcmux_peer_ready(peer, &ready)); mix_longs(ready.channels, FLAGS); break;
    case 3: answer(lcmux_peer_pending(peer)); break;
    case 4: answer(lcmux_peer_slots_left(peer)); break;
    case 5: answer(lcmux_peer_wants_write(peer)); break;
    case 6: answer(lcmux_peer_front_len(peer, channel)); break;
    default: answer(lcmux_peer_end(peer)); break;
    }
}

static void send_or_take(lcmux_peer *peer, uint32_t is_send, uint32_t channel, uint32_t len, uint32_t step) {
    if (is_send) {
        for (uint32_t at = 0; at < len; at++)
            buffer[at] = (uint8_t)(step + at);
        answer(lcmux_peer_send(peer, channel, buffer, len));
        return;
    }
    lcmux_answer taken = lcmux_peer_take(peer, channel, buffer, 40 + len);
    answer(taken);
    for (uint32_t at = 0; taken.code == LCMUX_OK && at < taken.number; at++)
        mix(buffer[at]);
}

static void carry(uint32_t side, uint32_t is_write, uint32_t len) {
    if (is_write) {
        lcmux_answer wrote = lcmux_peer_write(&peers[side], wires[side] + to[side], len);
        answer(wrote);
        for (uint32_t at = 0; at < wrote.number; at++)
            mix(wires[side][to[side]++]);
        return;
    }
    uint32_t other = 1 - side;
    size_t there = to[other] - from[other];
    deliver(&peers[side], wires[other] + from[other], there < len ? there : len, &from[other]);
}

/* Random bytes, some of them after a valid tag. */
static void noise(uint32_t side, uint32_t len) {
    size_t none = 0;
    for (uint32_t at = 0; at < len; at++)
        buffer[at] = (uint8_t)below(256);
    if (below(4)) {
        uint32_t kind = 1 + below(7), channel = below(LCMUX_CHANNELS), high = below(2), low = below(256);
        const uint8_t frame[9] = {(uint8_t)(16 * kind + channel), 0, (uint8_t)high, 0, (uint8_t)low, 0, 0, 0, 1};
        memcpy(buffer, frame, sizeof frame);
    }
    deliver(&peers[side], buffer, len, &none);
}

int main(int count, char **words) {
    uint32_t steps = count > 1 ? (uint32_t)strtoul(words[1], NULL, 10) : 300000;
    for (uint32_t step = 0; step < steps; step++) {
        if (step % 2000 == 0)
            anew();
        uint32_t side = below(2), act = below(100), channel = below(LCMUX_CHANNELS), len = below(80), kind = below(64);
        if (act < 35)
            send_or_take(&peers[side], act < 22, channel, len, step);
        else if (act < 52)
            own(&peers[side], 0, channel, len);
        else if (act < 60)
            own(&peers[side], kind < 14 && kind > 3 && below(30) ? 3 : kind % 16, channel, len);
        else if (act < 93)
            carry(side, act < 76, 4 * len);
        else if (act < 99)
            look(&peers[side], kind % 8, channel);
        else if (below(10) == 0)
            noise(side, len);
        if (step % 100000 == 99999)
            printf("%u %08x\n", step + 1, hash);
    }
    return 0;
}
