/* lcmux: seven logical channels each way between two peers, over one ordered byte stream each way, with
 * credit-based flow control for each channel.
 *
 * A peer is one side of a session: a state machine without input and output of its own. The program passes
 * inbound bytes to it by lcmux_peer_deliver and fetches outbound bytes from it by lcmux_peer_write. Sockets,
 * threads and waiting belong to the program.
 *
 * Flow control. On each channel the receiver issues guarantees. A guarantee is one byte of send credit: the
 * promise of one free byte in the receiver's ring buffer. The sender sends no more bytes than it holds
 * guarantees for. All amounts, bounds and balances count bytes of messages. Channels are numbered 0 to 6 and
 * run in both directions; each side is the sender of one direction and the receiver of the other.
 *
 * The handle. Initialise it by `lcmux_peer p = LCMUX_PEER_EMPTY;`, make the peer by lcmux_peer_new, and free
 * it by lcmux_peer_free. The library owns the memory behind the handle. The program owns the handle itself
 * and every buffer; the library keeps no pointer to a buffer after a call. An empty handle is allowed in
 * every call, which then returns LCMUX_NO_PEER and does nothing. lcmux_peer_free empties the handle, so a
 * later call and a second free do just that.
 *
 * The library makes no system call. A program that writes to a socket whose peer is gone gets the signal
 * SIGPIPE, which terminates it by default: send with MSG_NOSIGNAL, or ignore the signal.
 *
 * Preconditions that the library cannot check:
 *  - a handle is LCMUX_PEER_EMPTY at first, only this library changes its two fields, and no copy of it is
 *    used beside it or after it (to move a peer, copy the handle and empty the old one);
 *  - no pointer is NULL, apart from that of a buffer of length 0 and the handle of lcmux_peer_free or
 *    lcmux_mux_free, and a buffer is as long as its length says;
 *  - no buffer overlaps the handle, the output of the same call or another buffer of it. A message that
 *    lcmux_peer_front borrows may be the body of lcmux_peer_send, also on the same peer: a send only reads it
 *    and changes no ring buffer;
 *  - the calls on one handle run one at a time, also those that take a const handle: they leave it as it was,
 *    but write to it meanwhile, so a handle is never in read-only memory. Different handles are independent, and
 *    a handle may move to another thread if something orders the two threads, such as a lock or a join;
 *  - a struct that a call fills is at least as long as the size in it says;
 *  - no call is made from a signal handler, or in the child of a fork in a program with threads.
 *
 * Codes. Each call returns a code of the enum below, and a number that belongs to some codes and is 0 with
 * all others. After a code other than LCMUX_OK nothing has changed, unless the call says so. Any call on a
 * peer can return LCMUX_NO_PEER, and any call on a channel LCMUX_NO_CHANNEL; the lists of the calls leave
 * these two out. The other codes of a call are listed in the order in which they are checked.
 * lcmux_peer_deliver returns a struct of its own.
 *
 * Structs with a size. lcmux_client, lcmux_server, lcmux_ready, lcmux_error, lcmux_notice and lcmux_owed begin with
 * their size, which the program sets by a macro such as LCMUX_CLIENT_INIT, so that a later version can add fields at
 * the end. The sizes of version 0.1, which are 80, 104, 288, 64, 32 and 56 bytes, stay accepted: a later version then
 * leaves its later fields out. With a larger size the call leaves the bytes behind the fields that it knows unchanged.
 * A smaller size is refused by LCMUX_BAD_SIZE. An element of the array in lcmux_ready cannot grow, since the size is
 * that of the whole struct.
 * All other structs, such as lcmux_front and lcmux_next, have no size and get no further fields.
 *
 * Backpressure. These refusals can pass:
 *  - LCMUX_NO_GUARANTEE: keep the message, read, and send it once enough guarantees arrived. A message that is
 *    longer than the peer's ring buffer is refused in this way forever;
 *  - LCMUX_QUEUE_FULL: write pending frames, and make the same call again;
 *  - LCMUX_OUT_OF_MEMORY: the same call may succeed later;
 *  - LCMUX_NO_ROOM, LCMUX_NOT_HELD and LCMUX_NOTHING_TO_ASK: their number is the current amount, which changes
 *    as messages are taken and frames arrive.
 * LCMUX_CHANNEL_FINISHED, LCMUX_PAST_SEND_LIMIT and the other refusals are final: the call is not allowed,
 * and waiting changes nothing. lcmux_peer_needs returns what a message needs.
 *
 * Deadlock. Read also while bytes are pending. Two sides that both write everything before they read wait for
 * each other forever, once both have more to write than the sockets between them buffer. Use a non-blocking
 * socket, let poll wait for both directions, and keep the bytes that a write did not accept.
 *
 * The main loop of a program takes messages from each channel until that returns LCMUX_EMPTY or LCMUX_ENDED,
 * issues the bytes of the taken messages again, and repeats the calls that backpressure refused. Then it waits
 * until the socket is readable and, if lcmux_peer_wants_write returns 1 or a write left bytes, until it is
 * writable; it writes, reads and delivers.
 *
 * Closing. Once a program has nothing more to send, it finishes the channels on which it sent messages: by
 * lcmux_peer_finish, or in version One by lcmux_peer_limit_sending with a bound of 0. It goes on reading and
 * takes until the peer's channels have ended, so that no message is lost. Then it finishes the other channels,
 * writes all pending bytes, shuts down its direction of the socket (half-close) and reads until the peer has
 * done so, too. A session of the libraries for Rust and JavaScript reports a stream that ends with an
 * unfinished channel as cut. A side that has read the end of the peer's stream may still have bytes to write.
 *
 * Memory. Only lcmux_peer_new and lcmux_peer_send allocate, and of a session lcmux_mux_new and the calls that
 * may return LCMUX_OUT_OF_MEMORY, by the three functions of heap.c. A program may replace them: see lcmux_heap.h.
 * Receive memory is bounded: seven ring buffers and one frame buffer.
 *
 * The library is for Linux, in the C calling convention of the processor: x86-64 with SSE4.2 (x86-64-v2), or
 * aarch64.
 */
#ifndef LCMUX_H
#define LCMUX_H

#include <stddef.h>
#include <stdint.h>

/** The version of this header as a text. */
#define LCMUX_VERSION "0.1.0"
/** The version of this header as a number: 65,536 times the first number, plus 256 times the second, plus the
 *  third. */
#define LCMUX_VERSION_NUMBER 0x000100

#ifdef __cplusplus
extern "C" {
#endif

#if defined(__GNUC__)
#define LCMUX_NONNULL __attribute__((nonnull))
#define LCMUX_NONNULL_PEER __attribute__((nonnull(1)))
#else
#define LCMUX_NONNULL
#define LCMUX_NONNULL_PEER
#endif

/** The number of channels, which are numbered from 0. */
#define LCMUX_CHANNELS 7

/** The codes that calls return. lcmux_text has a sentence for each. */
enum {
    /* codes: begin codes */
    /** The call succeeded. */
    LCMUX_OK = 0,

    /* Refusals: the call is not allowed now, and nothing has changed. */

    /** The message is empty: a message has at least 1 byte. */
    LCMUX_EMPTY_BODY = 1,
    /** The message is too long: a message has at most 65,535 bytes in version 1 and 1,048,576 in version 2. */
    LCMUX_BODY_TOO_LONG = 2,
    /** The message is longer than this side's limit on sending allows. Number: what the limit still allows. */
    LCMUX_PAST_SEND_LIMIT = 3,
    /** The message is longer than the guarantees that this side holds. Number: the held guarantees. */
    LCMUX_NO_GUARANTEE = 4,
    /** The amount is zero: at least 1 guarantee is issued or absolved. */
    LCMUX_ZERO_AMOUNT = 5,
    /** The call would absolve more guarantees than this side holds. Number: the held guarantees. */
    LCMUX_NOT_HELD = 6,
    /** The bound of a limit is above 2^62. */
    LCMUX_BOUND_TOO_LARGE = 7,
    /** The bound is above what an earlier limit allows: a limit is only ever lowered. Number: what the earlier limit
     *  still allows. */
    LCMUX_LIMIT_RAISED = 8,
    /** The call would issue more than this side's limit on receiving allows. Number: what the limit still allows. */
    LCMUX_PAST_RECEIVE_LIMIT = 9,
    /** The call would issue more guarantees than the ring buffer has free bytes that are not yet issued. Number:
     *  what may be issued now. */
    LCMUX_NO_ROOM = 10,
    /** The target of the plead is not below the outstanding guarantees. Number: the outstanding guarantees. */
    LCMUX_NOTHING_TO_ASK = 11,
    /** The guarantees of the channel would exceed 2^62 in total. */
    LCMUX_TOTAL_REACHED = 12,
    /** The outbound queue is full: write some of its frames first. */
    LCMUX_QUEUE_FULL = 13,
    /** An allocation failed. The same call may be made again. */
    LCMUX_OUT_OF_MEMORY = 14,
    /** The sender has finished the channel. */
    LCMUX_CHANNEL_FINISHED = 15,
    /** The buffer is too short. Number: the length that is needed. */
    LCMUX_BUFFER_TOO_SMALL = 16,
    /** Version 1 of the wire format has no frame that finishes a channel. */
    LCMUX_WRONG_VERSION = 17,

    /* Errors of handles, arguments and configurations. */

    /** The handle is empty. */
    LCMUX_NO_PEER = 32,
    /** lcmux_peer_new on a handle that has a peer. */
    LCMUX_HAS_PEER = 33,
    /** The channel is above 6. */
    LCMUX_NO_CHANNEL = 34,
    /** The version of the configuration is neither 1 nor 2. */
    LCMUX_BAD_VERSION = 35,
    /** The size of a ring buffer is not in 1 to 2^24. Number: the first such channel. */
    LCMUX_BAD_CAPACITY = 36,
    /** The slots of the configuration are not in 1 to 65,536. */
    LCMUX_BAD_SLOTS = 37,
    /** lcmux_text of a number that is no code. */
    LCMUX_NO_CODE = 38,
    /** The size in a struct is less than that of this version's struct. Number: the size that it needs. */
    LCMUX_BAD_SIZE = 39,

    /* Results of takes. */

    /** No message is available now. */
    LCMUX_EMPTY = 48,
    /** No message is available, and none will arrive: the sender finished the channel or used up its limit. */
    LCMUX_ENDED = 49,

    /* Results of queries. */

    /** lcmux_peer_needs of a message that can never be sent. */
    LCMUX_NEVER = 50,

    /* Results of a session's calls, and the outcomes of waiting ones. */

    /** The call of a session waits: lcmux_mux_next_notice returns its ticket once it proceeded. */
    LCMUX_WAITS = 51,
    /** No notice is available now. */
    LCMUX_NO_NOTICE = 52,
    /** The outcome of an offer: its message can be sent, by lcmux_mux_complete. */
    LCMUX_NOTIFIED = 53,

    /* Ends of a session. */

    /** This side closed the session. */
    LCMUX_CLOSED_HERE = 64,
    /** The peer closed the session: it finished all its channels and ended its stream. */
    LCMUX_CLOSED_THERE = 65,
    /** The peer's stream ended before the peer had finished all its channels, or within a frame. */
    LCMUX_CUT = 66,
    /** This side aborted the session. */
    LCMUX_ABORTED = 67,
    /** The transport failed: the program called lcmux_mux_fail. */
    LCMUX_TRANSPORT_FAILED = 68,

    /* Violations: an inbound frame broke a rule of the protocol. The session is over. */

    /** V1. The message is longer than the outstanding guarantees. */
    LCMUX_V1_NOT_GUARANTEED = 101,
    /** V2. The message is longer than the sender's limit allows. */
    LCMUX_V2_SENT_PAST_LIMIT = 102,
    /** V3. The frame absolves more guarantees than are outstanding. */
    LCMUX_V3_ABSOLVED_TOO_MUCH = 103,
    /** V4. The sender's limit is above what an earlier limit allows. */
    LCMUX_V4_SEND_LIMIT_RAISED = 104,
    /** V5. The frame issues more guarantees than the receiver's limit allows. */
    LCMUX_V5_ISSUED_PAST_LIMIT = 105,
    /** V6. The sender would hold more than 2^24 guarantees. */
    LCMUX_V6_TOO_MANY_GUARANTEES = 106,
    /** V7. The receiver's limit is above what an earlier limit allows. */
    LCMUX_V7_RECEIVE_LIMIT_RAISED = 107,
    /** V8. The sender would receive more than 2^62 guarantees in total. */
    LCMUX_V8_TOTAL_PASSED = 108,
    /** V9. A frame of the sender follows its Finish. */
    LCMUX_V9_AFTER_FINISH = 109,

    /* Faults: the inbound bytes broke the framing. The session is over. */

    /** F1. The first byte names no kind of frame or no channel, or a byte differs from the preface of version 2. */
    LCMUX_F1_BAD_TAG = 201,
    /** F2. The length of a message is 0. */
    LCMUX_F2_ZERO_LENGTH = 202,
    /** F3. A number is out of its range. */
    LCMUX_F3_BAD_NUMBER = 203,
    /** F4. The stream ends within a frame or within the preface of version 2. Only the end of the stream shows it. */
    LCMUX_F4_TRUNCATED = 204
    /* codes: end */
};

/** The handle of a peer. Only the library reads and writes its fields. */
typedef struct lcmux_peer {
    /** Distinguishes an empty handle. */
    uint64_t mark;
    /** The memory of the peer. */
    void *at;
} lcmux_peer;

/** An empty handle, to initialise a handle or to assign to it. */
#ifdef __cplusplus
#define LCMUX_PEER_EMPTY {0, 0}
#else
#define LCMUX_PEER_EMPTY ((lcmux_peer){0, 0})
#endif

/** The result of a call. */
typedef struct lcmux_answer {
    /** LCMUX_OK, or the reason why the call did nothing. */
    uint32_t code;
    /** The number that belongs to the code, else 0. */
    uint64_t number;
} lcmux_answer;

/** The configuration of a peer. */
typedef struct lcmux_config {
    /** The version of the outbound stream, 1 or 2. The inbound stream may have either version. */
    uint32_t version;
    /** The slots of the outbound queue, 1 to 65,536: the most frames that it holds. */
    uint32_t slots;
    /** The size of each channel's receive ring buffer in bytes, 1 to 2^24. */
    uint32_t capacities[LCMUX_CHANNELS];
} lcmux_config;

/** The initial value of an lcmux_config: version 1, 16 slots and rings of 65,536 bytes. */
#define LCMUX_CONFIG_INIT {1, 16, {65536, 65536, 65536, 65536, 65536, 65536, 65536}}

/** The result of lcmux_peer_deliver. */
typedef struct lcmux_delivery {
    /** LCMUX_OK, a violation, a fault F1 to F3, or LCMUX_NO_PEER. */
    uint32_t code;
    /** How many bytes were consumed: all of them with LCMUX_OK. */
    size_t taken;
    /** How many whole frames arrived, also before a protocol error. */
    uint64_t frames;
} lcmux_delivery;

/** Stands for a number that is absent: a limit that is not set, the target of a plead if none is pending, and what does
 *  not belong to an error. */
#define LCMUX_NONE UINT64_MAX

/** The protocol error for which this side discarded the rest of the peer's stream, and where it is. */
typedef struct lcmux_error {
    /** The size of the struct, which the program sets: LCMUX_ERROR_INIT. */
    uint64_t size;
    /** The code of the violation or of the fault, or LCMUX_OK while the stream goes on. */
    uint64_t code;
    /** How many bytes of the inbound stream precede the offending frame, its preface among them. While the stream goes
     *  on, how many precede the frame that is not whole: after LCMUX_F4_TRUNCATED the one that is cut. */
    uint64_t offset;
    /** The kind of the frame that breaks a rule, or whose number is out of range, 1 to 7 as in its tag; LCMUX_NONE with
     *  any code but a violation, LCMUX_F2_ZERO_LENGTH and LCMUX_F3_BAD_NUMBER. */
    uint64_t kind;
    /** The channel of that frame, or LCMUX_NONE. */
    uint64_t channel;
    /** The number that the frame carries, of a message its length, or LCMUX_NONE: a Finish carries none. */
    uint64_t number;
    /** After a violation the most that the number might have been, or LCMUX_NONE: nothing is allowed after a Finish. */
    uint64_t allowed;
    /** The byte that is no tag, or that differs from the preface; LCMUX_NONE with any code but LCMUX_F1_BAD_TAG. */
    uint64_t byte;
} lcmux_error;

/** The initial value of an lcmux_error. */
#define LCMUX_ERROR_INIT {sizeof(lcmux_error), 0, 0, LCMUX_NONE, LCMUX_NONE, LCMUX_NONE, LCMUX_NONE, LCMUX_NONE}

/** The sender's ledger of a channel: the credit of this side as the one that sends, in bytes of messages. */
typedef struct lcmux_client {
    /** The size of the struct, which the program sets: LCMUX_CLIENT_INIT. */
    uint64_t size;
    /** The guarantees that messages may use now, 0 to 2^24: the send credit. */
    uint64_t held;
    /** All guarantees that arrived: held + spent + absolved + waived. */
    uint64_t received;
    /** The guarantees that messages used. */
    uint64_t spent;
    /** The guarantees that this side gave back to the receiver. */
    uint64_t absolved;
    /** The guarantees that this side waived by lcmux_peer_finish, then and since. */
    uint64_t waived;
    /** The bytes that this side's limit still allows, or LCMUX_NONE. */
    uint64_t send_left;
    /** The guarantees that the receiver may still issue, or LCMUX_NONE. */
    uint64_t receive_left;
    /** The target of the pending plead, or LCMUX_NONE. */
    uint64_t asked;
    /** 1 if this side finished the channel, else 0. */
    uint64_t finished;
} lcmux_client;

/** The initial value of an lcmux_client. */
#define LCMUX_CLIENT_INIT {sizeof(lcmux_client), 0, 0, 0, 0, 0, 0, 0, 0, 0}

/** The receiver's ledger of a channel: the credit that this side issued as the one that receives, in bytes of
 *  messages. */
typedef struct lcmux_server {
    /** The size of the struct, which the program sets: LCMUX_SERVER_INIT. */
    uint64_t size;
    /** The size of the ring buffer: outstanding + buffered + room. */
    uint64_t capacity;
    /** All guarantees that this side issued: outstanding + received + absolved + waived. */
    uint64_t issued;
    /** All bytes of messages that arrived: taken + buffered. */
    uint64_t received;
    /** The bytes of messages that the program took. */
    uint64_t taken;
    /** The guarantees that the sender gave back. */
    uint64_t absolved;
    /** The guarantees that the sender may still use: issued, and not used, absolved or waived as far as known. */
    uint64_t outstanding;
    /** The bytes of messages that arrived and were not taken. */
    uint64_t buffered;
    /** The most guarantees that may be issued now. */
    uint64_t room;
    /** The guarantees that the sender's Finish waived. */
    uint64_t waived;
    /** The bytes that the sender may still send, or LCMUX_NONE. 0: the channel ends here. */
    uint64_t send_left;
    /** The guarantees that this side's limit still allows, or LCMUX_NONE. */
    uint64_t receive_left;
    /** 1 if the sender's Finish arrived, else 0. */
    uint64_t finished;
} lcmux_server;

/** The initial value of an lcmux_server. */
#define LCMUX_SERVER_INIT {sizeof(lcmux_server), 0, 0, 0, 0, 0, 0, 0, 0, 0, 0, 0, 0}

/** The state of a channel that the program can act on. Each field is 1 or 0. The struct is the element of an array, so
 *  no later version adds a field to it. */
typedef struct lcmux_channel_ready {
    /** A message is available. */
    uint64_t message;
    /** No message is available, and none will arrive. */
    uint64_t ended;
    /** A plead of the receiver is pending. */
    uint64_t plead;
    /** This side finished its direction of the channel. */
    uint64_t finished;
    /** The peer finished its direction of the channel. */
    uint64_t finished_there;
} lcmux_channel_ready;

/** The state of all channels. */
typedef struct lcmux_ready {
    /** The size of the struct, which the program sets: LCMUX_READY_INIT. */
    uint64_t size;
    /** By the number of the channel. */
    lcmux_channel_ready channels[LCMUX_CHANNELS];
} lcmux_ready;

/** The initial value of an lcmux_ready. */
#define LCMUX_READY_INIT {sizeof(lcmux_ready), {{0, 0, 0, 0, 0}}}

/** Borrowed bytes: a zero-copy view. The pointer is never null, even if the length is 0. */
typedef struct lcmux_piece {
    /** The first byte. */
    const uint8_t *bytes;
    /** The number of bytes. */
    size_t len;
} lcmux_piece;

/** A borrowed message: the bytes of the first piece, and then those of the rest. The struct has no size, so no later
 *  version adds a field to it. */
typedef struct lcmux_front {
    /** The message, up to the wrap point of its ring buffer. */
    lcmux_piece first;
    /** The bytes after the wrap point; empty unless the message crosses it. It directly follows the first piece in
     *  memory. */
    lcmux_piece rest;
} lcmux_front;

/** A borrowed outbound frame: the first header_len bytes of header, and then those of message. The struct has no size,
 *  so no later version adds a field to it. */
typedef struct lcmux_next {
    /** The tag and the number of the frame. */
    uint8_t header[9];
    /** How many bytes of header the frame has. */
    size_t header_len;
    /** The message, which is empty unless the frame carries one. */
    lcmux_piece message;
} lcmux_next;

/** Makes a peer behind an empty handle. In version 2 the preface of the stream, 4c 43 4d 02, is pending from
 *  then on.
 *
 *  It makes 18 allocations: the rings, the list of frames, the peer, and two buffers of 1,048,581 bytes of
 *  address space, for an inbound and an outbound frame.
 *
 *  Codes: LCMUX_HAS_PEER, LCMUX_BAD_VERSION, LCMUX_BAD_CAPACITY, LCMUX_BAD_SLOTS, LCMUX_OUT_OF_MEMORY. The handle
 *  is unchanged then. */
lcmux_answer lcmux_peer_new(const lcmux_config *config, lcmux_peer *peer) LCMUX_NONNULL;

/** Frees the peer, with its messages and frames, and empties the handle. If the handle is empty, or peer is NULL,
 *  it does nothing and returns LCMUX_NO_PEER. */
lcmux_answer lcmux_peer_free(lcmux_peer *peer);

/** Enqueues a copy of the body as one message: 1 to 65,535 bytes, in version 2 1 to 1,048,576.
 *
 *  Codes: LCMUX_CHANNEL_FINISHED, LCMUX_EMPTY_BODY, LCMUX_BODY_TOO_LONG, LCMUX_PAST_SEND_LIMIT,
 *  LCMUX_NO_GUARANTEE, LCMUX_OUT_OF_MEMORY, LCMUX_QUEUE_FULL. */
lcmux_answer lcmux_peer_send(lcmux_peer *peer, uint32_t channel, const uint8_t *body, size_t len) LCMUX_NONNULL_PEER;

/** Issues guarantees: the sender may send that many bytes more.
 *
 *  Codes: LCMUX_CHANNEL_FINISHED, LCMUX_ZERO_AMOUNT, LCMUX_PAST_RECEIVE_LIMIT, LCMUX_NO_ROOM, LCMUX_TOTAL_REACHED,
 *  LCMUX_QUEUE_FULL. */
lcmux_answer lcmux_peer_issue(lcmux_peer *peer, uint32_t channel, uint32_t amount) LCMUX_NONNULL;

/** Absolves: gives guarantees back to the receiver.
 *
 *  Codes: LCMUX_CHANNEL_FINISHED, LCMUX_ZERO_AMOUNT, LCMUX_NOT_HELD, LCMUX_QUEUE_FULL. */
lcmux_answer lcmux_peer_absolve(lcmux_peer *peer, uint32_t channel, uint32_t amount) LCMUX_NONNULL;

/** Pleads: asks the sender to absolve guarantees until it holds at most the target.
 *
 *  Codes: LCMUX_CHANNEL_FINISHED, LCMUX_NOTHING_TO_ASK, LCMUX_QUEUE_FULL. */
lcmux_answer lcmux_peer_plead(lcmux_peer *peer, uint32_t channel, uint32_t target) LCMUX_NONNULL;

/** Honours the pending plead: absolves the guarantees above its target. The plead is no longer pending. Number: how
 *  many were absolved, 0 if there were none.
 *
 *  Codes: LCMUX_CHANNEL_FINISHED; LCMUX_QUEUE_FULL, which leaves the plead pending. */
lcmux_answer lcmux_peer_honour(lcmux_peer *peer, uint32_t channel) LCMUX_NONNULL;

/** Limits sending to at most the bound from here on; 0 ends the channel.
 *
 *  Codes: LCMUX_CHANNEL_FINISHED, LCMUX_BOUND_TOO_LARGE, LCMUX_LIMIT_RAISED, LCMUX_QUEUE_FULL. */
lcmux_answer lcmux_peer_limit_sending(lcmux_peer *peer, uint32_t channel, uint64_t bound) LCMUX_NONNULL;

/** Limits issuing to at most the bound from here on.
 *
 *  Codes: LCMUX_CHANNEL_FINISHED, LCMUX_BOUND_TOO_LARGE, LCMUX_LIMIT_RAISED, LCMUX_QUEUE_FULL. */
lcmux_answer lcmux_peer_limit_receiving(lcmux_peer *peer, uint32_t channel, uint64_t bound) LCMUX_NONNULL;

/** Finishes the channel: this side sends nothing more on it and waives all guarantees that it holds or that still
 *  arrive. The receiver observes the end of the channel. Version 1 has no such frame; there, a limit of 0 on sending
 *  ends a channel.
 *
 *  Codes: LCMUX_WRONG_VERSION, LCMUX_CHANNEL_FINISHED, LCMUX_QUEUE_FULL. */
lcmux_answer lcmux_peer_finish(lcmux_peer *peer, uint32_t channel) LCMUX_NONNULL;

/** Return what the call of that name would return now, by the same rules. Nothing changes. lcmux_peer_would_send
 *  takes the length of the message, so a program need not build a body before it can be sent, and never returns
 *  LCMUX_OUT_OF_MEMORY. */
lcmux_answer lcmux_peer_would_send(const lcmux_peer *peer, uint32_t channel, size_t len) LCMUX_NONNULL;
lcmux_answer lcmux_peer_would_issue(const lcmux_peer *peer, uint32_t channel, uint32_t amount) LCMUX_NONNULL;
lcmux_answer lcmux_peer_would_absolve(const lcmux_peer *peer, uint32_t channel, uint32_t amount) LCMUX_NONNULL;
lcmux_answer lcmux_peer_would_plead(const lcmux_peer *peer, uint32_t channel, uint32_t target) LCMUX_NONNULL;
lcmux_answer lcmux_peer_would_honour(const lcmux_peer *peer, uint32_t channel) LCMUX_NONNULL;
lcmux_answer lcmux_peer_would_limit_sending(const lcmux_peer *peer, uint32_t channel, uint64_t bound) LCMUX_NONNULL;
lcmux_answer lcmux_peer_would_limit_receiving(const lcmux_peer *peer, uint32_t channel, uint64_t bound) LCMUX_NONNULL;
lcmux_answer lcmux_peer_would_finish(const lcmux_peer *peer, uint32_t channel) LCMUX_NONNULL;

/** Returns what a message of this length needs before it can be sent. Nothing changes.
 *
 *  A sender does not know the size of the receiver's ring buffer: a message longer than the ring needs guarantees
 *  that never arrive.
 *
 *  Codes:
 *   - LCMUX_OK: nothing;
 *   - LCMUX_NO_GUARANTEE: more guarantees. Number: how many are missing;
 *   - LCMUX_QUEUE_FULL: a slot in the outbound queue, so write;
 *   - LCMUX_NEVER: the message can never be sent: it is empty, it is longer than the version or a limit of either side
 *     allows, or the channel is finished. */
lcmux_answer lcmux_peer_needs(const lcmux_peer *peer, uint32_t channel, size_t len) LCMUX_NONNULL;

/** Returns how many slots of the outbound queue are free. Number: the free slots. */
lcmux_answer lcmux_peer_slots_left(const lcmux_peer *peer) LCMUX_NONNULL;

/** Returns the current state of all channels, which the next call may change, in a struct whose size is set. With a
 *  code other than LCMUX_OK the struct is unchanged.
 *
 *  Codes: LCMUX_BAD_SIZE. */
lcmux_answer lcmux_peer_ready(const lcmux_peer *peer, lcmux_ready *ready) LCMUX_NONNULL;

/** Processes the next chunk of the inbound stream, which may have either version and may be cut anywhere; len may
 *  be 0. Whole frames arrive, and the beginning of an incomplete frame is kept.
 *
 *  After a violation or a fault the frames before it have arrived, each further call consumes nothing and returns the
 *  same code, and all other calls still work.
 *
 *  Codes: the violations, from LCMUX_V1_NOT_GUARANTEED on; the faults, apart from LCMUX_F4_TRUNCATED. */
lcmux_delivery lcmux_peer_deliver(lcmux_peer *peer, const uint8_t *piece, size_t len) LCMUX_NONNULL_PEER;

/** Reports whether the inbound stream may end here. Nothing changes.
 *
 *  Codes: LCMUX_OK between two frames, LCMUX_F4_TRUNCATED inside a frame or inside the preface, and the code of an
 *  earlier lcmux_peer_deliver that failed. */
lcmux_answer lcmux_peer_end(const lcmux_peer *peer) LCMUX_NONNULL;

/** Returns why this side discarded the rest of the peer's stream, and where: the offset of the offending frame, what the
 *  frame says, and what was allowed instead, in a struct whose size is set. While the stream goes on, the struct says
 *  where the frame begins that is not whole. With a code other than LCMUX_OK the struct is unchanged.
 *
 *  Codes: LCMUX_BAD_SIZE. */
lcmux_answer lcmux_peer_error(const lcmux_peer *peer, lcmux_error *error) LCMUX_NONNULL;

/** Copies the next outbound bytes to the front of buffer. Number: how many bytes these are. A frame that does not fit
 *  continues in the next call. The bytes count as sent: a program that cannot send them has lost the stream.
 *
 *  A buffer of 65,538 bytes holds any frame of version 1, one of 1,048,581 bytes any frame of version 2. */
lcmux_answer lcmux_peer_write(lcmux_peer *peer, uint8_t *buffer, size_t len) LCMUX_NONNULL_PEER;

/** Returns how many outbound bytes are pending. It visits each frame of the outbound queue. Number: the bytes. */
lcmux_answer lcmux_peer_pending(const lcmux_peer *peer) LCMUX_NONNULL;

/** Returns whether any outbound byte is pending. Number: 1 or 0. */
lcmux_answer lcmux_peer_wants_write(const lcmux_peer *peer) LCMUX_NONNULL;

/** Borrows the next outbound frame without copying it; the frame stays. Number: the size of the frame. The message
 *  belongs to the peer and is valid until the next lcmux_peer_sent, lcmux_peer_write or lcmux_peer_free of the peer.
 *
 *  Each call borrows the whole frame: the peer does not remember that a part of it was written. A program that writes
 *  to a socket counts the bytes that the socket accepted, skips them in the next attempt, and calls lcmux_peer_sent
 *  once the frame is complete. Until then it makes no lcmux_peer_write, which would return the frame from its first
 *  byte; other calls may be made. With writev, where the socket has accepted `written` bytes of the frame:
 *
 *      size_t head = written < next.header_len ? written : next.header_len, body = written - head;
 *      struct iovec rest[2] = {{next.header + head, next.header_len - head},
 *                              {(void *)(next.message.bytes + body), next.message.len - body}};
 *      ssize_t count = writev(fd, rest, 2);
 *      if (count > 0 && (written += (size_t)count) == next.header_len + next.message.len) {
 *          lcmux_peer_sent(&peer);
 *          written = 0;
 *      }
 *
 *  examples/writev.c is a whole program. The preface of version 2 is no frame: lcmux_peer_write returns it first.
 *
 *  Codes: LCMUX_EMPTY if no frame is pending, or if lcmux_peer_write has to return the rest of an earlier frame or of
 *  the preface first. With a code other than LCMUX_OK nothing is borrowed. */
lcmux_answer lcmux_peer_next(const lcmux_peer *peer, lcmux_next *next) LCMUX_NONNULL;

/** Counts the whole frame of lcmux_peer_next as sent and drops it. Number: the size of the frame.
 *
 *  Codes: LCMUX_EMPTY where lcmux_peer_next returns that. */
lcmux_answer lcmux_peer_sent(lcmux_peer *peer) LCMUX_NONNULL;

/** Returns the length of the first message, which stays. Number: the length.
 *
 *  Codes: LCMUX_EMPTY, LCMUX_ENDED. */
lcmux_answer lcmux_peer_front_len(const lcmux_peer *peer, uint32_t channel) LCMUX_NONNULL;

/** Borrows the first message without copying it; the message stays. Number: its length. The bytes belong to the peer
 *  and are valid until the next lcmux_peer_take or lcmux_peer_pop of this channel, or lcmux_peer_free.
 *
 *  Codes: LCMUX_EMPTY, LCMUX_ENDED. With a code other than LCMUX_OK both pieces are empty. */
lcmux_answer lcmux_peer_front(const lcmux_peer *peer, uint32_t channel, lcmux_front *message) LCMUX_NONNULL;

/** Drops the first message. Its bytes become free in the ring buffer. Number: its length.
 *
 *  Codes: LCMUX_EMPTY, LCMUX_ENDED. */
lcmux_answer lcmux_peer_pop(lcmux_peer *peer, uint32_t channel) LCMUX_NONNULL;

/** Copies the first message to the front of buffer and drops it. Its bytes become free in the ring buffer. Number: its
 *  length.
 *
 *  Codes: LCMUX_BUFFER_TOO_SMALL, which leaves the message; LCMUX_EMPTY, LCMUX_ENDED. */
lcmux_answer lcmux_peer_take(lcmux_peer *peer, uint32_t channel, uint8_t *buffer, size_t len) LCMUX_NONNULL_PEER;

/** Returns the sender's ledger of a channel in a struct whose size is set. With a code other than LCMUX_OK the struct is
 *  unchanged.
 *
 *  Codes: LCMUX_BAD_SIZE. */
lcmux_answer lcmux_peer_client(const lcmux_peer *peer, uint32_t channel, lcmux_client *balances) LCMUX_NONNULL;
/** Returns the receiver's ledger of a channel in a struct whose size is set. With a code other than LCMUX_OK the struct is
 *  unchanged.
 *
 *  Codes: LCMUX_BAD_SIZE. */
lcmux_answer lcmux_peer_server(const lcmux_peer *peer, uint32_t channel, lcmux_server *balances) LCMUX_NONNULL;

/** A session as one machine: a peer with its send scheduler, its pending control frames, and how it ends. It has no
 *  thread, no lock and no transport, as a peer: bytes that arrive are delivered to it, and it writes bytes into a buffer.
 *
 *  A call of a sender either proceeds at once or waits in its channel's wait queue, under a ticket, a number that the
 *  program chooses. lcmux_mux_next_notice returns the tickets of the calls that proceeded. A program takes all notices
 *  after each call that changes the session: after a delivery, after a write, and after its own calls. The order in which
 *  calls proceed, and what each call returns once the session ends, are those of docs/reference/sessions.md.
 *
 *  A control call, such as lcmux_mux_issue, is accepted whatever is queued: its frame is pending until a slot is free.
 *
 *  What the head of this file says of the handle of a peer holds for that of a session: the same preconditions, and the
 *  same codes, LCMUX_NO_PEER for an empty handle among them. A call that the session no longer accepts returns the code
 *  of the end: LCMUX_CLOSED_HERE, LCMUX_CLOSED_THERE, LCMUX_CUT, LCMUX_ABORTED, LCMUX_TRANSPORT_FAILED, a violation or a
 *  fault. The lists of the calls leave these out, too; they come before the other codes. */
typedef struct lcmux_mux {
    /** Distinguishes an empty handle. */
    uint64_t mark;
    /** The memory of the session. */
    void *at;
} lcmux_mux;

/** An empty handle, to initialise a handle or to assign to it. */
#ifdef __cplusplus
#define LCMUX_MUX_EMPTY {0, 0}
#else
#define LCMUX_MUX_EMPTY ((lcmux_mux){0, 0})
#endif

/** What became of a call that waited. */
typedef struct lcmux_notice {
    /** The size of the struct, which the program sets: LCMUX_NOTICE_INIT. */
    uint64_t size;
    /** The ticket of the call. */
    uint64_t ticket;
    /** Its channel. */
    uint64_t channel;
    /** LCMUX_OK: the message or the bound of the call entered the outbound queue, or its permit is granted. LCMUX_NOTIFIED:
     *  the message of the offer can be sent, by lcmux_mux_complete. LCMUX_NEVER: the call will never proceed, and is given
     *  up. */
    uint64_t outcome;
} lcmux_notice;

/** The initial value of an lcmux_notice. */
#define LCMUX_NOTICE_INIT {sizeof(lcmux_notice), 0, 0, 0}

/** The control frames of a channel that were accepted and lack a slot. */
typedef struct lcmux_owed {
    /** The size of the struct, which the program sets: LCMUX_OWED_INIT. */
    uint64_t size;
    /** The guarantees of the pending issue. */
    uint64_t issue;
    /** The pending limit on receiving, or LCMUX_NONE. */
    uint64_t limit_receiving;
    /** The target of the pending plead, or LCMUX_NONE. */
    uint64_t plead;
    /** The guarantees of the pending absolve. */
    uint64_t absolve;
    /** 1 if an honour is pending, else 0. */
    uint64_t honour;
    /** The most guarantees that may be issued beside the pending issue. */
    uint64_t room;
} lcmux_owed;

/** The initial value of an lcmux_owed. */
#define LCMUX_OWED_INIT {sizeof(lcmux_owed), 0, LCMUX_NONE, LCMUX_NONE, 0, 0, 0}

/** The marks of lcmux_mux_set_issue_policy: issue all room as soon as there is any, and never without a call. */
#define LCMUX_AT_ONCE UINT32_MAX
#define LCMUX_BY_CALLER 0

/** Makes a session behind an empty handle, with at least 14 slots. It issues all room at once and honours each plead at
 *  once, unless other policies are set before the first call that changes it. In version 2 the preface of the stream is
 *  pending from then on.
 *
 *  Codes: LCMUX_HAS_PEER, LCMUX_BAD_VERSION, LCMUX_BAD_SLOTS if there are fewer than 14 slots, LCMUX_BAD_CAPACITY,
 *  LCMUX_BAD_SLOTS, LCMUX_OUT_OF_MEMORY. The handle is unchanged then. */
lcmux_answer lcmux_mux_new(const lcmux_config *config, lcmux_mux *mux) LCMUX_NONNULL;

/** Frees the session, with its messages, frames and waiting calls, and empties the handle. If the handle is empty, or mux
 *  is NULL, it does nothing and returns LCMUX_NO_PEER. */
lcmux_answer lcmux_mux_free(lcmux_mux *mux);

/** Processes the next chunk of the inbound stream, as lcmux_peer_deliver; then each waiting call proceeds that can. A
 *  violation or a fault ends the session. Once no bytes are taken any more, because the session is over, or because the
 *  peer ended its stream in order, the call consumes nothing and returns the code of that end.
 *
 *  Codes: the violations, from LCMUX_V1_NOT_GUARANTEED on; the faults, apart from LCMUX_F4_TRUNCATED. */
lcmux_delivery lcmux_mux_deliver(lcmux_mux *mux, const uint8_t *piece, size_t len) LCMUX_NONNULL_PEER;

/** Returns why the inbound stream broke the rules, and where, as lcmux_peer_error.
 *
 *  Codes: LCMUX_BAD_SIZE. */
lcmux_answer lcmux_mux_error(const lcmux_mux *mux, lcmux_error *error) LCMUX_NONNULL;

/** The inbound stream ended. Unless the peer has finished all its channels, and the stream ended between two frames, the
 *  session is cut. */
lcmux_answer lcmux_mux_end_input(lcmux_mux *mux) LCMUX_NONNULL;

/** Copies the next outbound bytes to the front of buffer, as lcmux_peer_write. Behind each frame that leaves the outbound
 *  queue each waiting call proceeds that can. Once the session is over nothing is written. Number: how many bytes. */
lcmux_answer lcmux_mux_write(lcmux_mux *mux, uint8_t *buffer, size_t len) LCMUX_NONNULL_PEER;

/** Returns whether the outbound stream ends here: this side closed the session, has finished all channels, and has written
 *  all bytes. Number: 1 or 0. */
lcmux_answer lcmux_mux_is_done_writing(const lcmux_mux *mux) LCMUX_NONNULL;

/** Sends a message. If it cannot enter the outbound queue at once, the call waits with a copy of it.
 *
 *  Codes: LCMUX_CHANNEL_FINISHED, LCMUX_EMPTY_BODY, LCMUX_BODY_TOO_LONG, LCMUX_PAST_SEND_LIMIT, LCMUX_OUT_OF_MEMORY;
 *  LCMUX_WAITS. */
lcmux_answer lcmux_mux_send(lcmux_mux *mux, uint32_t channel, uint64_t ticket, const uint8_t *body, size_t len) LCMUX_NONNULL_PEER;

/** Sends a message if it can enter the outbound queue at once, behind all calls of its channel that wait.
 *
 *  Codes: LCMUX_CHANNEL_FINISHED, LCMUX_EMPTY_BODY, LCMUX_BODY_TOO_LONG, LCMUX_PAST_SEND_LIMIT, LCMUX_OUT_OF_MEMORY; and
 *  what it lacks: LCMUX_NEVER, LCMUX_NO_GUARANTEE, whose number is how many guarantees are missing, or LCMUX_QUEUE_FULL, a
 *  slot, bytes or its turn. */
lcmux_answer lcmux_mux_try_send(lcmux_mux *mux, uint32_t channel, const uint8_t *body, size_t len) LCMUX_NONNULL_PEER;

/** Offers a message of this length: the call waits without a copy of it. Its notice LCMUX_NOTIFIED says that it can be
 *  sent; then the program calls lcmux_mux_complete, or gives the offer up by lcmux_mux_cancel.
 *
 *  Codes: LCMUX_CHANNEL_FINISHED, LCMUX_EMPTY_BODY, LCMUX_BODY_TOO_LONG, LCMUX_PAST_SEND_LIMIT, LCMUX_OUT_OF_MEMORY. */
lcmux_answer lcmux_mux_offer(lcmux_mux *mux, uint32_t channel, uint64_t ticket, size_t len) LCMUX_NONNULL;

/** Sends the message of an offer, if the offer is the first call of its channel and the message can proceed now; else the
 *  offer waits on at its place.
 *
 *  Codes: LCMUX_CHANNEL_FINISHED, LCMUX_EMPTY_BODY, LCMUX_BODY_TOO_LONG, LCMUX_PAST_SEND_LIMIT, LCMUX_OUT_OF_MEMORY;
 *  LCMUX_WAITS. */
lcmux_answer lcmux_mux_complete(lcmux_mux *mux, uint32_t channel, uint64_t ticket, const uint8_t *body, size_t len) LCMUX_NONNULL_PEER;

/** Gives up the first waiting call of a ticket: it sent nothing and spent nothing. Number: 1 if there was one, else 0. */
lcmux_answer lcmux_mux_cancel(lcmux_mux *mux, uint32_t channel, uint64_t ticket) LCMUX_NONNULL;

/** Reserves a permit for a message of this length: a slot, and as many guarantees. It is granted with LCMUX_OK, or with the
 *  notice of a call that waits, and held until lcmux_mux_send_reserved or lcmux_mux_give_back.
 *
 *  Codes: LCMUX_CHANNEL_FINISHED, LCMUX_EMPTY_BODY, LCMUX_BODY_TOO_LONG, LCMUX_PAST_SEND_LIMIT, LCMUX_OUT_OF_MEMORY;
 *  LCMUX_WAITS. */
lcmux_answer lcmux_mux_reserve(lcmux_mux *mux, uint32_t channel, uint64_t ticket, size_t len) LCMUX_NONNULL;

/** Reserves a permit if it can be granted at once.
 *
 *  Codes: LCMUX_CHANNEL_FINISHED, LCMUX_EMPTY_BODY, LCMUX_BODY_TOO_LONG, LCMUX_PAST_SEND_LIMIT; and what it lacks, as
 *  lcmux_mux_try_send. */
lcmux_answer lcmux_mux_try_reserve(lcmux_mux *mux, uint32_t channel, size_t len) LCMUX_NONNULL;

/** Sends a message by a permit of `reserved` bytes, which is used up. With any other code than LCMUX_OK it is still out.
 *
 *  Codes: LCMUX_CHANNEL_FINISHED, LCMUX_EMPTY_BODY, LCMUX_BODY_TOO_LONG, LCMUX_PAST_SEND_LIMIT, LCMUX_NO_GUARANTEE if the
 *  message is longer than the permit or no such permit is out, LCMUX_OUT_OF_MEMORY. */
lcmux_answer lcmux_mux_send_reserved(lcmux_mux *mux, uint32_t channel, size_t reserved, const uint8_t *body, size_t len) LCMUX_NONNULL_PEER;

/** Gives a permit of this length back. Number: 1 if such a permit was out, else 0. */
lcmux_answer lcmux_mux_give_back(lcmux_mux *mux, uint32_t channel, size_t reserved) LCMUX_NONNULL;

/** Limits sending to at most the bound, behind the waiting calls and the permits of the channel.
 *
 *  Codes: LCMUX_CHANNEL_FINISHED, LCMUX_BOUND_TOO_LARGE, LCMUX_LIMIT_RAISED, LCMUX_OUT_OF_MEMORY; LCMUX_WAITS. */
lcmux_answer lcmux_mux_limit_sending(lcmux_mux *mux, uint32_t channel, uint64_t ticket, uint64_t bound) LCMUX_NONNULL;

/** Finishes the channel, behind its waiting calls and its permits. In version 1 a limit of 0 on sending does that.
 *
 *  Codes: LCMUX_WRONG_VERSION, LCMUX_CHANNEL_FINISHED, LCMUX_OUT_OF_MEMORY; LCMUX_WAITS. */
lcmux_answer lcmux_mux_finish(lcmux_mux *mux, uint32_t channel, uint64_t ticket) LCMUX_NONNULL;

/** Issues guarantees, beside the pending issue.
 *
 *  Codes: LCMUX_CHANNEL_FINISHED, LCMUX_ZERO_AMOUNT, LCMUX_PAST_RECEIVE_LIMIT, LCMUX_NO_ROOM, LCMUX_TOTAL_REACHED. */
lcmux_answer lcmux_mux_issue(lcmux_mux *mux, uint32_t channel, uint32_t amount) LCMUX_NONNULL;

/** Limits issuing to at most the bound, behind the pending issue.
 *
 *  Codes: LCMUX_CHANNEL_FINISHED, LCMUX_BOUND_TOO_LARGE, LCMUX_LIMIT_RAISED. */
lcmux_answer lcmux_mux_limit_receiving(lcmux_mux *mux, uint32_t channel, uint64_t bound) LCMUX_NONNULL;

/** Pleads: asks the sender to absolve guarantees until it holds at most the target. No policy issues above that.
 *
 *  Codes: LCMUX_CHANNEL_FINISHED, LCMUX_NOTHING_TO_ASK. */
lcmux_answer lcmux_mux_plead(lcmux_mux *mux, uint32_t channel, uint32_t target) LCMUX_NONNULL;

/** Absolves guarantees that no permit holds.
 *
 *  Codes: LCMUX_CHANNEL_FINISHED, LCMUX_ZERO_AMOUNT, LCMUX_NOT_HELD. */
lcmux_answer lcmux_mux_absolve(lcmux_mux *mux, uint32_t channel, uint32_t amount) LCMUX_NONNULL;

/** Honours the plead that is kept, once permits no longer hold what that absolves.
 *
 *  Codes: LCMUX_CHANNEL_FINISHED. */
lcmux_answer lcmux_mux_honour(lcmux_mux *mux, uint32_t channel) LCMUX_NONNULL;

/** Sets when room of the channel is issued without a call: while fewer guarantees are outstanding than low_water, or by
 *  LCMUX_AT_ONCE, or by LCMUX_BY_CALLER. It holds from the next change of the session on. */
lcmux_answer lcmux_mux_set_issue_policy(lcmux_mux *mux, uint32_t channel, uint32_t low_water) LCMUX_NONNULL;

/** Sets whether a plead on the channel is honoured without a call, by 1, or by calls alone, by 0. */
lcmux_answer lcmux_mux_set_plead_policy(lcmux_mux *mux, uint32_t channel, uint32_t at_once) LCMUX_NONNULL;

/** Returns the pending control frames of a channel in a struct whose size is set. With a code other than LCMUX_OK the
 *  struct is unchanged.
 *
 *  Codes: LCMUX_BAD_SIZE. */
lcmux_answer lcmux_mux_owed(const lcmux_mux *mux, uint32_t channel, lcmux_owed *owed) LCMUX_NONNULL;

/** Returns the next notice in a struct whose size is set, and drops it. With a code other than LCMUX_OK nothing is
 *  dropped, and the struct is unchanged. Calls that the end of the session or lcmux_mux_close gives up have no notice,
 *  unless lcmux_mux_cancel or lcmux_mux_give_back is called after a failure: these let the calls behind them proceed.
 *
 *  Codes: LCMUX_BAD_SIZE; LCMUX_NO_NOTICE. */
lcmux_answer lcmux_mux_next_notice(lcmux_mux *mux, lcmux_notice *notice) LCMUX_NONNULL;

/** As lcmux_peer_take, lcmux_peer_front_len, lcmux_peer_front and lcmux_peer_pop. Messages that arrived can be taken
 *  after the session is over, too, unless it was aborted: then the code is LCMUX_ABORTED. After any other failure a channel
 *  that the peer had not finished returns LCMUX_EMPTY behind its last message; lcmux_mux_over returns the reason. */
lcmux_answer lcmux_mux_take(lcmux_mux *mux, uint32_t channel, uint8_t *buffer, size_t len) LCMUX_NONNULL_PEER;
lcmux_answer lcmux_mux_front_len(const lcmux_mux *mux, uint32_t channel) LCMUX_NONNULL;
lcmux_answer lcmux_mux_front(const lcmux_mux *mux, uint32_t channel, lcmux_front *message) LCMUX_NONNULL;
lcmux_answer lcmux_mux_pop(lcmux_mux *mux, uint32_t channel) LCMUX_NONNULL;

/** Closes the session, unless it is over. No message is accepted from then on; waiting calls and permits are given up,
 *  without notices, and fail by LCMUX_CLOSED_HERE. What entered the outbound queue is written, and each channel is
 *  finished. The session is over once the peer has done the same. */
lcmux_answer lcmux_mux_close(lcmux_mux *mux) LCMUX_NONNULL;

/** Aborts the session, unless it is over: nothing is written from then on, and no message can be taken. */
lcmux_answer lcmux_mux_abort(lcmux_mux *mux) LCMUX_NONNULL;

/** Ends the session, unless it is over, because the transport failed. */
lcmux_answer lcmux_mux_fail(lcmux_mux *mux) LCMUX_NONNULL;

/** Returns the code of the end of the session, and LCMUX_OK while it is not over. LCMUX_CLOSED_HERE is the end in order:
 *  both sides have finished all their channels and ended their streams. */
lcmux_answer lcmux_mux_over(const lcmux_mux *mux) LCMUX_NONNULL;

/** As lcmux_peer_client, lcmux_peer_server and lcmux_peer_slots_left. */
lcmux_answer lcmux_mux_client(const lcmux_mux *mux, uint32_t channel, lcmux_client *balances) LCMUX_NONNULL;
lcmux_answer lcmux_mux_server(const lcmux_mux *mux, uint32_t channel, lcmux_server *balances) LCMUX_NONNULL;
lcmux_answer lcmux_mux_slots_left(const lcmux_mux *mux) LCMUX_NONNULL;

/** Returns LCMUX_VERSION_NUMBER of the linked library. A program that may be linked with another version than that of
 *  this header compares the two before it makes a peer. */
uint32_t lcmux_version(void);

/** Copies an English sentence about a code, and a zero byte, to the front of buffer. 64 bytes are enough for each code.
 *  Number: the length without the zero byte.
 *
 *  Codes: LCMUX_NO_CODE, LCMUX_BUFFER_TOO_SMALL. The buffer is unchanged then. */
lcmux_answer lcmux_text(uint32_t code, char *buffer, size_t len);

/** Returns the sentence about a code that lcmux_text copies, and "there is no such code" if it is none. The string is
 *  static: it is valid for the rest of the program, and may be read by several threads at once. */
const char *lcmux_strerror(uint32_t code);

#ifdef __cplusplus
}
#endif
#endif
