/* heap.c over a malloc that guarantees no more than C does: its blocks are aligned only as their size requires, a
 * size of 0 gets none, each resize moves the block, and a refused request gets none. Linked with
 * -Wl,--wrap=malloc,--wrap=realloc,--wrap=free. */
#include "lcmux_heap.h"

#include <stdint.h>
#include <stdio.h>
#include <stdlib.h>
#include <string.h>

/* The blocks that were allocated and not freed. */
static struct block {
    char *base, *at;
    size_t size;
} blocks[4];

#define BLOCKS (sizeof blocks / sizeof *blocks)

static bool refused;
static int requests;

static void must(bool holds, const char *what) {
    if (!holds) {
        printf("FAILED: %s\n", what);
        exit(1);
    }
}

/* Returns the entry of a block, or a free entry for NULL. */
static struct block *entry(const char *at) {
    for (struct block *block = blocks; block < blocks + BLOCKS; block++)
        if (block->at == at)
            return block;
    must(false, at ? "a block that is there" : "few blocks");
    return NULL;
}

static size_t live(void) {
    size_t count = 0;
    for (const struct block *block = blocks; block < blocks + BLOCKS; block++)
        count += block->at != NULL;
    return count;
}

void *__real_malloc(size_t size);
void __real_free(void *at);
void *__wrap_malloc(size_t size);
void *__wrap_realloc(void *at, size_t size);
void __wrap_free(void *at);

/* The offset from the base, which is aligned to 16: the power of two below that which divides the size. */
void *__wrap_malloc(size_t size) {
    requests++;
    if (refused || !size)
        return NULL;
    struct block *block = entry(NULL);
    size_t gap = size % 16 ? size & -size : 0;
    block->base = __real_malloc(gap + size);
    must(block->base != NULL, "memory for the test");
    block->at = block->base + gap;
    block->size = size;
    return block->at;
}

void __wrap_free(void *at) {
    if (!at)
        return;
    struct block *block = entry(at);
    memset(at, 0xdd, block->size);
    __real_free(block->base);
    *block = (struct block){NULL, NULL, 0};
}

void *__wrap_realloc(void *at, size_t size) {
    size_t before = at ? entry(at)->size : 0;
    void *moved = __wrap_malloc(size);
    if (moved && at)
        memcpy(moved, at, before < size ? before : size);
    if (moved || !size)
        __wrap_free(at);
    return moved;
}

/* Sizes, and their alignments, which divide them. */
static const struct {
    size_t size, align;
} wanted[] = {{0, 1}, {0, 8}, {0, 16}, {1, 1}, {2, 2}, {3, 1}, {12, 4}, {24, 8}, {48, 16}, {4096, 16}, {1048581, 1}};

#define WANTED (sizeof wanted / sizeof *wanted)

static struct lcmux_tried none(struct lcmux_tried tried) {
    must(!tried.ok, "a request that is refused is told");
    must(tried.at != NULL, "its pointer is not NULL");
    must(requests == 1, "it was one request");
    return tried;
}

/* Checks that a block has its size and its alignment and overlaps no other, and writes every byte of it. */
static char *got(struct lcmux_tried tried, size_t size, size_t align) {
    must(tried.ok, "a request that is granted is told");
    must((uintptr_t)tried.at % align == 0, "the block is aligned");
    must(entry(tried.at)->size == (size ? size : align), "it is as long as was asked, and not empty");
    must(requests == 1, "it was one request");
    return tried.at;
}

static void fill(char *at, size_t size) {
    for (size_t k = 0; k < size; k++)
        at[k] = (char)(k % 251 + 1);
}

static bool is_filled(const char *at, size_t size) {
    for (size_t k = 0; k < size; k++)
        if (at[k] != (char)(k % 251 + 1))
            return false;
    return true;
}

static struct lcmux_tried alloc(bool refuse, size_t size, size_t align) {
    requests = 0;
    refused = refuse;
    return lcmux_alloc(size, align);
}

static struct lcmux_tried resize(bool refuse, char *at, size_t kept, size_t size, size_t align) {
    requests = 0;
    refused = refuse;
    return lcmux_realloc(at, kept, size, align);
}

static void is_granted(size_t size, size_t align) {
    none(alloc(true, size, align));
    must(live() == 0, "nothing is got");
    char *at = got(alloc(false, size, align), size, align);
    fill(at, size);
    lcmux_dealloc(at);
    must(live() == 0, "it is given back");
}

static void is_moved(size_t before, size_t size, size_t align) {
    size_t kept = before < size ? before : size;
    char *at = got(alloc(false, before, align), before, align);
    fill(at, before);
    none(resize(true, at, kept, size, align));
    must(live() == 1 && is_filled(at, before), "the old block is left alone");
    at = got(resize(false, at, kept, size, align), size, align);
    must(live() == 1, "the old block is given back");
    must(is_filled(at, kept), "the block has the bytes of the old one");
    fill(at, size);
    lcmux_dealloc(at);
    must(live() == 0, "it is given back");
}

int main(void) {
    int moved = 0;
    for (size_t k = 0; k < WANTED; k++)
        is_granted(wanted[k].size, wanted[k].align);
    for (size_t from = 0; from < WANTED; from++)
        for (size_t to = 0; to < WANTED; to++)
            if (wanted[from].align == wanted[to].align) {
                is_moved(wanted[from].size, wanted[to].size, wanted[to].align);
                moved++;
            }
    printf("%zu requests granted and refused, %d blocks moved and left alone\n", WANTED, moved);
    return 0;
}
