/* Two libraries of the Rattle kit in one program: this one, over heap.c, and a copy of it under other names, over the
 * heap below. Each allocates from its own heap, and they do not interfere. */
#include "lcmux_heap.h"
#include "lcmux.h"

#include <stdio.h>
#include <stdlib.h>
#include <string.h>

static int asked;

struct lcmux_tried rattle_alloc(size_t size, size_t align) {
    asked++;
    return (struct lcmux_tried){true, malloc(size ? size : align)};
}

struct lcmux_tried rattle_realloc(void *at, size_t kept, size_t size, size_t align) {
    (void)kept;
    asked++;
    return (struct lcmux_tried){true, realloc(at, size ? size : align)};
}

void rattle_dealloc(void *at) {
    free(at);
}

lcmux_answer other_peer_new(const lcmux_config *config, lcmux_peer *peer);
lcmux_answer other_peer_free(lcmux_peer *peer);
lcmux_answer other_peer_send(lcmux_peer *peer, uint32_t channel, const uint8_t *body, size_t len);
lcmux_answer other_peer_write(lcmux_peer *peer, uint8_t *buffer, size_t len);
lcmux_delivery other_peer_deliver(lcmux_peer *peer, const uint8_t *piece, size_t len);

int main(void) {
    lcmux_config config = {1, 4, {8, 8, 8, 8, 8, 8, 8}};
    lcmux_peer mine = LCMUX_PEER_EMPTY, other = LCMUX_PEER_EMPTY;
    uint8_t wire[64], message[8];
    int made = lcmux_peer_new(&config, &mine).code == LCMUX_OK && asked == 0;
    made = made && other_peer_new(&config, &other).code == LCMUX_OK && asked == 18;
    lcmux_peer_issue(&mine, 1, 2);
    other_peer_deliver(&other, wire, lcmux_peer_write(&mine, wire, sizeof wire).number);
    int sent = other_peer_send(&other, 1, (const uint8_t *)"hi", 2).code == LCMUX_OK && asked == 19;
    lcmux_peer_deliver(&mine, wire, other_peer_write(&other, wire, sizeof wire).number);
    int took = lcmux_peer_take(&mine, 1, message, sizeof message).number == 2 && !memcmp(message, "hi", 2);
    lcmux_peer_free(&mine);
    other_peer_free(&other);
    if (made && sent && took)
        return 0;
    fprintf(stderr, "made %d, sent %d, took %d, asked %d\n", made, sent, took, asked);
    return 1;
}
