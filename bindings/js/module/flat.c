/* The calls of lcmux.h for a host with 32-bit numbers. An address is a u32, since the memory stays below 4 GiB. The
 * return value is a code, and the rest of the result is at answered(). */
#include "lcmux.h"
#include "lcmux_heap.h"

typedef uint32_t u32;
typedef uint64_t u64;

#define EXPORT(name) __attribute__((export_name(#name))) name
#define AT(address) ((void *)(size_t)(address))

/* The rest of the last result. For a delivery, the number is how many bytes were consumed. */
static struct {
    u64 number;
    u64 frames;
    union {
        lcmux_client client;
        lcmux_server server;
        lcmux_ready ready;
        lcmux_error error;
        lcmux_front front;
        lcmux_next next;
    };
} last;

/* The buffer for inbound and outbound bytes: it holds the longest message. */
static uint8_t place[1 << 20];

static u32 answer(lcmux_answer it) {
    last.number = it.number;
    return it.code;
}

u32 EXPORT(answered)(void) { return (u32)(size_t)&last; }
u32 EXPORT(place_at)(void) { return (u32)(size_t)place; }
u32 EXPORT(place_len)(void) { return sizeof place; }

/* Makes a handle, or returns 0 if the allocation fails. */
u32 EXPORT(handle_new)(void) {
    struct lcmux_tried tried = lcmux_alloc(sizeof(lcmux_peer), _Alignof(lcmux_peer));
    if (!tried.ok)
        return 0;
    *(lcmux_peer *)tried.at = LCMUX_PEER_EMPTY;
    return (u32)(size_t)tried.at;
}

void EXPORT(handle_free)(u32 peer) { lcmux_dealloc(AT(peer)); }

/* The configuration is in the buffer. */
u32 EXPORT(peer_new)(u32 peer) { return answer(lcmux_peer_new((const lcmux_config *)(void *)place, AT(peer))); }

/* The calls on a peer, by their other arguments. */
#define OF_PEER(name) \
    u32 EXPORT(peer_##name)(u32 peer) { return answer(lcmux_peer_##name(AT(peer))); }
#define OF_CHANNEL(name) \
    u32 EXPORT(peer_##name)(u32 peer, u32 channel) { return answer(lcmux_peer_##name(AT(peer), channel)); }
#define OF_AMOUNT(name) \
    u32 EXPORT(peer_##name)(u32 peer, u32 channel, u32 amount) { return answer(lcmux_peer_##name(AT(peer), channel, amount)); }
#define OF_BOUND(name) \
    u32 EXPORT(peer_##name)(u32 peer, u32 channel, u64 bound) { return answer(lcmux_peer_##name(AT(peer), channel, bound)); }

OF_PEER(free)
OF_PEER(slots_left)
OF_PEER(wants_write)
OF_PEER(pending)
OF_PEER(sent)
OF_PEER(end)
OF_CHANNEL(honour)
OF_CHANNEL(finish)
OF_CHANNEL(front_len)
OF_CHANNEL(pop)
OF_CHANNEL(would_honour)
OF_CHANNEL(would_finish)
OF_AMOUNT(issue)
OF_AMOUNT(absolve)
OF_AMOUNT(plead)
OF_AMOUNT(would_issue)
OF_AMOUNT(would_absolve)
OF_AMOUNT(would_plead)
OF_BOUND(limit_sending)
OF_BOUND(limit_receiving)
OF_BOUND(would_send)
OF_BOUND(would_limit_sending)
OF_BOUND(would_limit_receiving)
OF_BOUND(needs)

/* The calls whose bytes pass through the buffer: `len` is at most its length. */
u32 EXPORT(peer_send)(u32 peer, u32 channel, u32 len) { return answer(lcmux_peer_send(AT(peer), channel, place, len)); }
u32 EXPORT(peer_take)(u32 peer, u32 channel, u32 len) { return answer(lcmux_peer_take(AT(peer), channel, place, len)); }
u32 EXPORT(peer_write)(u32 peer, u32 len) { return answer(lcmux_peer_write(AT(peer), place, len)); }

u32 EXPORT(peer_deliver)(u32 peer, u32 len) {
    lcmux_delivery delivery = lcmux_peer_deliver(AT(peer), place, len);
    last.number = delivery.taken;
    last.frames = delivery.frames;
    return delivery.code;
}

/* The calls that return more than a number: the first four in a struct whose first field is its size. */
u32 EXPORT(peer_client)(u32 peer, u32 channel) {
    last.client.size = sizeof last.client;
    return answer(lcmux_peer_client(AT(peer), channel, &last.client));
}

u32 EXPORT(peer_server)(u32 peer, u32 channel) {
    last.server.size = sizeof last.server;
    return answer(lcmux_peer_server(AT(peer), channel, &last.server));
}

u32 EXPORT(peer_ready)(u32 peer) {
    last.ready.size = sizeof last.ready;
    return answer(lcmux_peer_ready(AT(peer), &last.ready));
}

u32 EXPORT(peer_error)(u32 peer) {
    last.error.size = sizeof last.error;
    return answer(lcmux_peer_error(AT(peer), &last.error));
}

u32 EXPORT(peer_next)(u32 peer) { return answer(lcmux_peer_next(AT(peer), &last.next)); }
u32 EXPORT(peer_front)(u32 peer, u32 channel) { return answer(lcmux_peer_front(AT(peer), channel, &last.front)); }

u32 EXPORT(version)(void) { return lcmux_version(); }
u32 EXPORT(text)(u32 code) { return answer(lcmux_text(code, (char *)place, sizeof place)); }
