/* The calls in which a program may pass NULL: for a buffer of length 0, and for the handle of lcmux_peer_free and lcmux_mux_free. The
 * proved calls behind them never get a NULL. */
#include "lcmux.h"

lcmux_answer lcmux_proved_send(lcmux_peer *peer, uint32_t channel, const uint8_t *body, size_t len);
lcmux_delivery lcmux_proved_deliver(lcmux_peer *peer, const uint8_t *piece, size_t len);
lcmux_answer lcmux_proved_write(lcmux_peer *peer, uint8_t *buffer, size_t len);
lcmux_answer lcmux_proved_take(lcmux_peer *peer, uint32_t channel, uint8_t *buffer, size_t len);
lcmux_answer lcmux_proved_text(uint32_t code, char *buffer, size_t len);
lcmux_answer lcmux_proved_free(lcmux_peer *peer);
lcmux_answer lcmux_proved_mux_send(lcmux_mux *mux, uint32_t channel, uint64_t ticket, const uint8_t *body, size_t len);
lcmux_answer lcmux_proved_mux_try_send(lcmux_mux *mux, uint32_t channel, const uint8_t *body, size_t len);
lcmux_answer lcmux_proved_mux_complete(lcmux_mux *mux, uint32_t channel, uint64_t ticket, const uint8_t *body, size_t len);
lcmux_answer lcmux_proved_mux_send_reserved(lcmux_mux *mux, uint32_t channel, size_t reserved, const uint8_t *body, size_t len);
lcmux_delivery lcmux_proved_mux_deliver(lcmux_mux *mux, const uint8_t *piece, size_t len);
lcmux_answer lcmux_proved_mux_write(lcmux_mux *mux, uint8_t *buffer, size_t len);
lcmux_answer lcmux_proved_mux_take(lcmux_mux *mux, uint32_t channel, uint8_t *buffer, size_t len);
lcmux_answer lcmux_proved_mux_free(lcmux_mux *mux);

static uint8_t nothing[1];

lcmux_answer lcmux_peer_send(lcmux_peer *peer, uint32_t channel, const uint8_t *body, size_t len) {
    return lcmux_proved_send(peer, channel, len ? body : nothing, len);
}

lcmux_delivery lcmux_peer_deliver(lcmux_peer *peer, const uint8_t *piece, size_t len) {
    return lcmux_proved_deliver(peer, len ? piece : nothing, len);
}

lcmux_answer lcmux_peer_write(lcmux_peer *peer, uint8_t *buffer, size_t len) {
    return lcmux_proved_write(peer, len ? buffer : nothing, len);
}

lcmux_answer lcmux_peer_take(lcmux_peer *peer, uint32_t channel, uint8_t *buffer, size_t len) {
    return lcmux_proved_take(peer, channel, len ? buffer : nothing, len);
}

lcmux_answer lcmux_text(uint32_t code, char *buffer, size_t len) {
    return lcmux_proved_text(code, len ? buffer : (char *)nothing, len);
}

lcmux_answer lcmux_peer_free(lcmux_peer *peer) {
    return peer ? lcmux_proved_free(peer) : (lcmux_answer){LCMUX_NO_PEER, 0};
}

lcmux_answer lcmux_mux_send(lcmux_mux *mux, uint32_t channel, uint64_t ticket, const uint8_t *body, size_t len) {
    return lcmux_proved_mux_send(mux, channel, ticket, len ? body : nothing, len);
}

lcmux_answer lcmux_mux_try_send(lcmux_mux *mux, uint32_t channel, const uint8_t *body, size_t len) {
    return lcmux_proved_mux_try_send(mux, channel, len ? body : nothing, len);
}

lcmux_answer lcmux_mux_complete(lcmux_mux *mux, uint32_t channel, uint64_t ticket, const uint8_t *body, size_t len) {
    return lcmux_proved_mux_complete(mux, channel, ticket, len ? body : nothing, len);
}

lcmux_answer lcmux_mux_send_reserved(lcmux_mux *mux, uint32_t channel, size_t reserved, const uint8_t *body, size_t len) {
    return lcmux_proved_mux_send_reserved(mux, channel, reserved, len ? body : nothing, len);
}

lcmux_delivery lcmux_mux_deliver(lcmux_mux *mux, const uint8_t *piece, size_t len) {
    return lcmux_proved_mux_deliver(mux, len ? piece : nothing, len);
}

lcmux_answer lcmux_mux_write(lcmux_mux *mux, uint8_t *buffer, size_t len) {
    return lcmux_proved_mux_write(mux, len ? buffer : nothing, len);
}

lcmux_answer lcmux_mux_take(lcmux_mux *mux, uint32_t channel, uint8_t *buffer, size_t len) {
    return lcmux_proved_mux_take(mux, channel, len ? buffer : nothing, len);
}

lcmux_answer lcmux_mux_free(lcmux_mux *mux) {
    return mux ? lcmux_proved_mux_free(mux) : (lcmux_answer){LCMUX_NO_PEER, 0};
}
