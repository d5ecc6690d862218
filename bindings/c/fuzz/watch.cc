#include "watch.h"

#include "lcmux_heap.h"

#include <cinttypes>
#include <cstdio>
#include <cstdlib>
#include <utility>

std::vector<Call> calls;
Heap heap;

void differ(const char *what, uint64_t got, uint64_t want) {
    for (const Call &call : calls)
        fprintf(stderr, "%c %s %" PRIu32 " %" PRIu64 "\n", "ABC"[call.side], call.name, call.channel, call.number);
    fprintf(stderr, "DIFFERS: %s is %" PRIu64 ", and by the rules %" PRIu64 "\n", what, got, want);
    abort();
}

namespace {

/* Long blocks that were freed, with their lengths: the system is slow to allocate them again. */
auto &kept = *new std::vector<std::pair<size_t, uint8_t *>>;
constexpr size_t is_long = 1 << 16;

uint8_t *block_of(size_t len) {
    auto same_length = [len](const auto &it) { return it.first == len; };
    auto found = std::find_if(kept.begin(), kept.end(), same_length);
    if (found == kept.end())
        return static_cast<uint8_t *>(malloc(len));
    uint8_t *block = found->second;
    kept.erase(found);
    return block;
}

} // namespace

/* Each block has a guard on either side, with its size in the first one. Its bytes are not zero at first. */
lcmux_tried lcmux_alloc(size_t size, size_t) {
    static uint8_t nothing;
    if (++heap.requests == heap.refused)
        return {false, &nothing};
    heap.live++;
    uint8_t *block = block_of(size + 2 * edge);
    memcpy(block, &size, sizeof size);
    memset(block + sizeof size, 0xed, edge - sizeof size);
    memset(block + edge, 0xee, std::min(size, size_t(4096)));
    memset(block + edge + size, 0xed, edge);
    return {true, block + edge};
}

void lcmux_dealloc(void *at) {
    auto *block = static_cast<uint8_t *>(at) - edge;
    size_t size;
    memcpy(&size, block, sizeof size);
    same("whether bytes before a block are as they were", is_all(block + sizeof size, edge - sizeof size, 0xed), true);
    same("whether bytes behind a block are as they were", is_all(block + edge + size, edge, 0xed), true);
    heap.live--;
    if (size < is_long)
        free(block);
    else
        kept.push_back({size + 2 * edge, block});
}

lcmux_tried lcmux_realloc(void *at, size_t kept, size_t size, size_t align) {
    lcmux_tried tried = lcmux_alloc(size, align);
    if (tried.ok) {
        memcpy(tried.at, at, std::min(kept, size));
        lcmux_dealloc(at);
    }
    return tried;
}
