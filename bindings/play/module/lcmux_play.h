/* Scripts and streams: the output of lcmux and of lcmux_chart for them, and the state of both peers, from one buffer
 * into another. A buffer of length 0 may be at any address but NULL; the two buffers of one call do not overlap. */
#ifndef LCMUX_PLAY_H
#define LCMUX_PLAY_H

#include <stddef.h>
#include <stdint.h>

typedef struct {
    /* The exit status of the program: 0 for success, 1 for a failed allocation, 2 for bad arguments or input. 3:
     * `room` is less than shown + told, and `out` is unchanged. */
    uint32_t status;
    uint64_t shown; /* how many bytes of `out` belong to standard output */
    uint64_t told;  /* how many bytes after these are the line of a fault */
} lcmux_played;

/* Like `lcmux replay CAPACITY [2]`, and like `lcmux_chart CAPACITY [2]`. The version is 1 or 2. */
lcmux_played lcmux_play_replay(uint32_t capacity, uint32_t version, const uint8_t *script, size_t len, uint8_t *out, size_t room);
lcmux_played lcmux_play_chart(uint32_t capacity, uint32_t version, const uint8_t *script, size_t len, uint8_t *out, size_t room);

/* The state of both peers after a script: for each side's stream a line, and the lines of its frames in flight; and a
 * line for each direction and channel. */
lcmux_played lcmux_play_standing(uint32_t capacity, uint32_t version, const uint8_t *script, size_t len, uint8_t *out, size_t room);

/* Like `lcmux frames`; the frames with their offsets; and like `lcmux_chart frames`. */
lcmux_played lcmux_play_frames(const uint8_t *bytes, size_t len, uint8_t *out, size_t room);
lcmux_played lcmux_play_places(const uint8_t *bytes, size_t len, uint8_t *out, size_t room);
lcmux_played lcmux_play_stream(const uint8_t *bytes, size_t len, uint8_t *out, size_t room);

/* Writes the sentence of a refusal's number, of a violation's number plus 100, or of a fault's plus 200. Status 2:
 * the number is unknown. */
lcmux_played lcmux_play_text(uint32_t code, uint8_t *out, size_t room);

#endif
