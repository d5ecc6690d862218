/* Instrumentation of the library: a different result prints the calls so far, the heap tracks each of its blocks, and
 * a buffer detects where it was written. */
#ifndef LCMUX_WATCH_H
#define LCMUX_WATCH_H

#include <algorithm>
#include <cstddef>
#include <cstdint>
#include <cstring>
#include <vector>

struct Call {
    const char *name;
    size_t side;
    uint32_t channel;
    uint64_t number;
};
extern std::vector<Call> calls;

[[noreturn]] void differ(const char *what, uint64_t got, uint64_t want);

inline void same(const char *what, uint64_t got, uint64_t want) {
    if (got != want)
        differ(what, got, want);
}

inline bool is_all(const uint8_t *at, size_t len, uint8_t byte) {
    return std::all_of(at, at + len, [byte](uint8_t it) { return it == byte; });
}

/* The blocks that were not freed; the requests since the last call, and the number of the refused one, from 1. */
struct Heap {
    size_t live, requests, refused;
};
extern Heap heap;

/* The bytes that are checked on either side of a block and of a buffer. */
constexpr size_t edge = 16;

class Buffer {
public:
    explicit Buffer(size_t len) : bytes(len + 2 * edge, 0xa5), len(len) {}

    uint8_t *data() {
        return bytes.data() + edge;
    }

    /* Checks that the buffer begins with these bytes and that no other byte was written. */
    void must_be(const uint8_t *want, size_t count) {
        same("how much is written at most", std::max(count, len), len);
        same("whether the right bytes are written", count == 0 || !memcmp(data(), want, count), true);
        same("whether bytes before the buffer are as they were", is_all(bytes.data(), edge, 0xa5), true);
        same("whether bytes behind those are as they were", is_all(data() + count, len - count + edge, 0xa5), true);
    }

private:
    std::vector<uint8_t> bytes;
    size_t len;
};

#endif
