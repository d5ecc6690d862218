/* The library for C and a Rust library over the crate in one program. Each has its own calls and its own heap, so the
 * calls of C accept NULL for a buffer of length 0. */
#include "lcmux.h"
#include "lcmux_heap.h"

#include <stdio.h>

bool rust_passes_a_message(void);

/* Both symbols are linked; a program with one of the two libraries has only one of them. */
lcmux_answer lcmux_proved_send(lcmux_peer *peer, uint32_t channel, const uint8_t *body, size_t len);
lcmux_answer lcmux_rs_peer_send(lcmux_peer *peer, uint32_t channel, const uint8_t *body, size_t len);
struct lcmux_tried lcmux_rs_alloc(size_t size, size_t align);

static int are_apart(void) {
    return lcmux_peer_send != lcmux_proved_send && lcmux_peer_send != lcmux_rs_peer_send && lcmux_proved_send != lcmux_rs_peer_send &&
           lcmux_alloc != lcmux_rs_alloc;
}

static int takes_null(lcmux_peer *peer) {
    return lcmux_peer_send(peer, 1, NULL, 0).code == LCMUX_EMPTY_BODY && lcmux_peer_write(peer, NULL, 0).code == LCMUX_OK &&
           lcmux_peer_deliver(peer, NULL, 0).code == LCMUX_OK && lcmux_text(LCMUX_OK, NULL, 0).code == LCMUX_BUFFER_TOO_SMALL;
}

int main(void) {
    lcmux_config config = {1, 4, {8, 8, 8, 8, 8, 8, 8}};
    lcmux_peer peer = LCMUX_PEER_EMPTY;
    int made = lcmux_peer_new(&config, &peer).code == LCMUX_OK;
    int null = takes_null(&peer), apart = are_apart(), passed = rust_passes_a_message();
    lcmux_peer_free(&peer);
    if (made && null && apart && passed)
        return 0;
    fprintf(stderr, "made %d, null %d, apart %d, passed %d\n", made, null, apart, passed);
    return 1;
}
