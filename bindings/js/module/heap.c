/* The functions by which the library allocates from the module's memory, which only grows. The blocks are adjacent,
 * from the end of the data on. Each begins with its length and the length of the block before it. The free ones are in a
 * list, which a search goes through: so a block that is in use costs no search anything. No two neighbours are free. The
 * last block is a mark of length 0 that is never free. For one thread. */
#include "lcmux_heap.h"

#include <stdint.h>

struct block {
    size_t len;    /* including this head; 0 for the mark at the end */
    size_t before; /* the length of the block before it; 0 for the first */
    struct block *next, *previous; /* in the list of free blocks; NULL unless it is free */
};

enum { HEAD = sizeof(struct block), GRAIN = 16, PAGE = 65536 };

/* More than the memory may grow to. */
static const size_t MOST = (size_t)1 << 32;

extern unsigned char __heap_base;
static struct block *mark;
/* Before the first free block and after the last one. */
static struct block ends = {0, 0, &ends, &ends};

static struct block *behind(struct block *it) { return (struct block *)((char *)it + it->len); }
static struct block *in_front(struct block *it) { return (struct block *)((char *)it - it->before); }
static struct block *head_of(void *at) { return (struct block *)((char *)at - HEAD); }

static size_t rounded(size_t size, size_t grain) { return (size + grain - 1) / grain * grain; }

static bool is_free(const struct block *it) { return it->next != NULL; }

/* Puts a block into the list between two free ones, or the ends. */
static void enter(struct block *it, struct block *previous, struct block *next) {
    it->previous = previous;
    it->next = next;
    previous->next = next->previous = it;
}

static void leave(struct block *it) {
    it->previous->next = it->next;
    it->next->previous = it->previous;
    it->next = it->previous = NULL;
}

/* Merges a block with the block after it, if both are free. */
static void join(struct block *it) {
    struct block *other = behind(it);
    if (!is_free(it) || !is_free(other))
        return;
    leave(other);
    it->len += other->len;
    behind(it)->before = it->len;
}

static void release(struct block *it) {
    enter(it, ends.previous, &ends);
    join(it);
    if (it->before)
        join(in_front(it));
}

/* Grows the memory by so many pages and appends them as a free block. */
static bool grow_by(size_t pages) {
    size_t old = __builtin_wasm_memory_grow(0, pages);
    if (old >= MOST / PAGE) /* -1: the memory cannot grow */
        return false;
    struct block *it = mark ? mark : (struct block *)rounded((size_t)&__heap_base, GRAIN);
    struct block *end = (struct block *)((old + pages) * PAGE - HEAD);
    *it = (struct block){(size_t)end - (size_t)it, mark ? mark->before : 0, NULL, NULL};
    *end = (struct block){0, it->len, NULL, NULL};
    mark = end;
    release(it);
    return true;
}

/* Grows the memory for a block of this size. Each time costs an engine up to a millisecond, so it grows by a 16th at
 * least, if that is possible. */
static bool grow(size_t len) {
    size_t least = rounded(len + 2 * HEAD, PAGE) / PAGE, more = __builtin_wasm_memory_size(0) / 16;
    return (more > least && grow_by(more)) || grow_by(least);
}

/* Returns a free block of at least this size, or NULL. */
static struct block *find(size_t len) {
    for (struct block *it = ends.next; it != &ends; it = it->next)
        if (it->len >= len)
            return it;
    return NULL;
}

/* Takes the front of a free block; the rest stays free, in its place of the list, if it is large enough for a head. */
static void *take(struct block *it, size_t len) {
    struct block *previous = it->previous, *after = it->next;
    size_t rest = it->len - len;
    leave(it);
    if (rest >= HEAD + GRAIN) {
        it->len = len;
        behind(it)->len = rest;
        behind(it)->before = len;
        enter(behind(it), previous, after);
        behind(behind(it))->before = rest;
    }
    return (char *)it + HEAD;
}

struct lcmux_tried lcmux_alloc(size_t size, size_t align) {
    struct block *it = NULL;
    if (size < MOST && align <= GRAIN) {
        size_t len = HEAD + rounded(size, GRAIN);
        it = find(len);
        if (!it && grow(len))
            it = find(len);
        if (it)
            return (struct lcmux_tried){true, take(it, len)};
    }
    return (struct lcmux_tried){false, &__heap_base};
}

void lcmux_dealloc(void *at) { release(head_of(at)); }
