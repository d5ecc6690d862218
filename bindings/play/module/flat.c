/* The calls of lcmux_play.h for a host with 32-bit numbers. An address is a u32, since the memory stays below 4 GiB.
 * The return value is the status, and the two lengths are at answered(). */
#include "lcmux_heap.h"
#include "lcmux_play.h"

typedef uint32_t u32;

#define EXPORT(name) __attribute__((export_name(#name))) name
#define AT(address) ((void *)(size_t)(address))

static struct {
    u32 shown;
    u32 told;
} last;

static u32 answer(lcmux_played it) {
    last.shown = (u32)it.shown;
    last.told = (u32)it.told;
    return it.status;
}

u32 EXPORT(answered)(void) { return (u32)(size_t)&last; }

/* Returns an address, or 0 if the allocation fails. */
u32 EXPORT(alloc)(u32 size) {
    struct lcmux_tried tried = lcmux_alloc(size, 16);
    return tried.ok ? (u32)(size_t)tried.at : 0;
}

void EXPORT(dealloc)(u32 at) { lcmux_dealloc(AT(at)); }

/* The calls, by their input: a script with its peers, or the bytes of a stream. */
#define OF_SCRIPT(name) \
    u32 EXPORT(name)(u32 capacity, u32 version, u32 script, u32 len, u32 out, u32 room) { \
        return answer(lcmux_play_##name(capacity, version, AT(script), len, AT(out), room)); \
    }
#define OF_STREAM(name) \
    u32 EXPORT(name)(u32 bytes, u32 len, u32 out, u32 room) { return answer(lcmux_play_##name(AT(bytes), len, AT(out), room)); }

OF_SCRIPT(replay)
OF_SCRIPT(chart)
OF_SCRIPT(standing)
OF_STREAM(frames)
OF_STREAM(places)
OF_STREAM(stream)

u32 EXPORT(text)(u32 code, u32 out, u32 room) { return answer(lcmux_play_text(code, AT(out), room)); }
