/* For the tests: a heap that counts its requests and its blocks, and refuses a chosen request. The linker puts it
 * before heap.c. */
#include "lcmux_heap.h"

#include <stdint.h>

#define EXPORT(name) __attribute__((export_name(#name))) name

struct lcmux_tried __real_lcmux_alloc(size_t size, size_t align);
void __real_lcmux_dealloc(void *at);

static uint32_t made, refused, live;
static char nothing;

static bool is_refused(void) { return ++made == refused; }

/* The number of the request that is refused, counted from here on; 0 for none. */
void EXPORT(refuse)(uint32_t number) {
    made = 0;
    refused = number;
}

uint32_t EXPORT(requests)(void) { return made; }
uint32_t EXPORT(blocks)(void) { return live; }

struct lcmux_tried __wrap_lcmux_alloc(size_t size, size_t align) {
    if (is_refused())
        return (struct lcmux_tried){false, &nothing};
    struct lcmux_tried tried = __real_lcmux_alloc(size, align);
    live += tried.ok;
    return tried;
}

void __wrap_lcmux_dealloc(void *at) {
    live--;
    __real_lcmux_dealloc(at);
}

/* The calls of the heap with 32-bit numbers: an address, or 0 if the allocation failed. */
static uint32_t address(struct lcmux_tried tried) { return tried.ok ? (uint32_t)(size_t)tried.at : 0; }
uint32_t EXPORT(heap_alloc)(uint32_t size, uint32_t align) { return address(lcmux_alloc(size, align)); }
void EXPORT(heap_free)(uint32_t at) { lcmux_dealloc((void *)(size_t)at); }
