/* The sentences of lcmux_text as strings. */
#include "lcmux.h"

const char *lcmux_strerror(uint32_t code) {
    switch (code) {
    /* codes: begin sentences */
    case LCMUX_OK: return "done";
    case LCMUX_EMPTY_BODY: return "the message is empty";
    case LCMUX_BODY_TOO_LONG: return "the message is too long";
    case LCMUX_PAST_SEND_LIMIT: return "the message is longer than the limit on sending leaves";
    case LCMUX_NO_GUARANTEE: return "the message is longer than the guarantees that are held";
    case LCMUX_ZERO_AMOUNT: return "the amount is zero";
    case LCMUX_NOT_HELD: return "more would be absolved than is held";
    case LCMUX_BOUND_TOO_LARGE: return "the bound is above 2^62";
    case LCMUX_LIMIT_RAISED: return "the bound is above what an earlier limit leaves";
    case LCMUX_PAST_RECEIVE_LIMIT: return "more would be issued than the limit on receiving leaves";
    case LCMUX_NO_ROOM: return "more would be issued than the receiving ring has room for";
    case LCMUX_NOTHING_TO_ASK: return "the target is not below the guarantees outstanding";
    case LCMUX_TOTAL_REACHED: return "the guarantees of one channel would pass 2^62";
    case LCMUX_QUEUE_FULL: return "the outgoing queue is full";
    case LCMUX_OUT_OF_MEMORY: return "out of memory";
    case LCMUX_CHANNEL_FINISHED: return "the channel is finished";
    case LCMUX_BUFFER_TOO_SMALL: return "the buffer is too small";
    case LCMUX_WRONG_VERSION: return "version 1 of the format cannot finish a channel";
    case LCMUX_NO_PEER: return "the handle is empty";
    case LCMUX_HAS_PEER: return "the handle has a peer already";
    case LCMUX_NO_CHANNEL: return "there is no such channel";
    case LCMUX_BAD_VERSION: return "there is no such version of the format";
    case LCMUX_BAD_CAPACITY: return "a capacity is not 1 to 2^24";
    case LCMUX_BAD_SLOTS: return "the slots are not 1 to 65,536";
    case LCMUX_NO_CODE: return "there is no such code";
    case LCMUX_BAD_SIZE: return "a struct is shorter than its size has to be";
    case LCMUX_EMPTY: return "no message waits";
    case LCMUX_ENDED: return "no message waits, and none will come";
    case LCMUX_NEVER: return "the message can never be sent";
    case LCMUX_WAITS: return "the call waits";
    case LCMUX_NO_NOTICE: return "no notice is there";
    case LCMUX_NOTIFIED: return "the offered message can be sent";
    case LCMUX_CLOSED_HERE: return "this side closed the session";
    case LCMUX_CLOSED_THERE: return "the peer closed the session";
    case LCMUX_CUT: return "the stream ended before the peer finished";
    case LCMUX_ABORTED: return "the session was aborted";
    case LCMUX_TRANSPORT_FAILED: return "the transport failed";
    case LCMUX_V1_NOT_GUARANTEED: return "a message longer than the guarantees outstanding";
    case LCMUX_V2_SENT_PAST_LIMIT: return "a message beyond the limit on sending";
    case LCMUX_V3_ABSOLVED_TOO_MUCH: return "more guarantees absolved than are outstanding";
    case LCMUX_V4_SEND_LIMIT_RAISED: return "a limit on sending that raises an earlier one";
    case LCMUX_V5_ISSUED_PAST_LIMIT: return "guarantees beyond the limit on receiving";
    case LCMUX_V6_TOO_MANY_GUARANTEES: return "more than 2^24 guarantees held";
    case LCMUX_V7_RECEIVE_LIMIT_RAISED: return "a limit on receiving that raises an earlier one";
    case LCMUX_V8_TOTAL_PASSED: return "more than 2^62 guarantees on one channel";
    case LCMUX_V9_AFTER_FINISH: return "a frame of the client behind its Finish";
    case LCMUX_F1_BAD_TAG: return "a byte names no kind or channel, or is not the greeting's";
    case LCMUX_F2_ZERO_LENGTH: return "a message has length 0";
    case LCMUX_F3_BAD_NUMBER: return "a number in a frame is out of its range";
    case LCMUX_F4_TRUNCATED: return "the stream ends within a frame or a greeting";
    /* codes: end */
    default: return "there is no such code";
    }
}
