/* The functions that the proved library imports from its module: its heap, and a check around each call. */
#include "lcmux_heap.h"

/* The name of a function that the library imports from the module lcmux. */
#define IMPORT(name) __asm__("import " #name " from lcmux")

struct lcmux_tried heap_alloc(size_t size, size_t align) IMPORT(heap_alloc);
void heap_dealloc(void *at, size_t size, size_t align) IMPORT(heap_dealloc);

struct lcmux_tried heap_alloc(size_t size, size_t align) { return lcmux_alloc(size, align); }
void heap_dealloc(void *at, size_t size, size_t align) {
    (void)size, (void)align; /* the head of a block has its length */
    lcmux_dealloc(at);
}

/* Each export of the library enters and leaves. Entering one while another has not left traps: that other call called
 * back, or trapped. */
int __rattle_enter(void);
void __rattle_leave(void);
_Noreturn void __rattle_trap(void);

static int is_in_call;

int __rattle_enter(void) {
    int was_in_call = is_in_call;
    is_in_call = 1;
    return was_in_call;
}

void __rattle_leave(void) { is_in_call = 0; }

void __rattle_trap(void) { __builtin_trap(); }
