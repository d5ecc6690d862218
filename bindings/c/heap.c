/* The three functions by which the library allocates memory. A program that defines all three itself replaces them. */
#include "lcmux_heap.h"

#include <stdlib.h>

static char nothing;

/* malloc aligns a block to each power of two up to 16 that divides its size. */
struct lcmux_tried lcmux_alloc(size_t size, size_t align) {
    void *at = malloc(size ? size : align);
    return (struct lcmux_tried){at != NULL, at ? at : &nothing};
}

struct lcmux_tried lcmux_realloc(void *at, size_t kept, size_t size, size_t align) {
    (void)kept;
    void *moved = realloc(at, size ? size : align);
    return (struct lcmux_tried){moved != NULL, moved ? moved : &nothing};
}

void lcmux_dealloc(void *at) {
    free(at);
}
