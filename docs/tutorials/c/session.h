/* A session with one channel over a non-blocking socket. */
#include <lcmux.h>

enum { DATA = 1, RING = 65536 };

struct session {
    lcmux_peer peer;
    int fd;
    uint8_t out[65536]; /* bytes that the peer has written and the socket has not taken yet */
    size_t out_at, out_len;
    uint32_t owed;     /* free bytes of the ring for which no credit is issued yet */
    int all_received;  /* the other side has finished the channel, and all its messages are taken */
    uint32_t finished; /* so many channels are finished, in session_close */
    int out_ended, in_ended;
};

/* Each int is 0, or -1 once the session has failed and the reason is printed. */
int session_open(struct session *it, int fd);
void session_free(struct session *it);

/* Waits until the socket is ready, and moves bytes in and out. */
int session_move(struct session *it);

/* Takes a message, and stores its length, or 0 where none is there. */
int session_take(struct session *it, uint8_t *message, size_t size, size_t *len);

/* Finishes all channels, and ends this side's stream: to be called before each session_move until the session is over. */
int session_close(struct session *it);
int session_is_over(const struct session *it);

/* Judges an answer: 1 where the call was made, 0 where it has to be made again after a session_move, and else -1. */
int session_made(const char *call, lcmux_answer answer);
