import { Channel } from './channel.js';

// The codes of lcmux.h: number, name, sentence, and the name of the number that belongs to some of them. A test compares
// the sentences with those of the module.
const TABLE = [
  // codes: begin codes
  [1, 'EmptyBody', 'the message is empty'],
  [2, 'BodyTooLong', 'the message is too long'],
  [3, 'PastSendLimit', 'the message is longer than the limit on sending leaves', 'left'],
  [4, 'NoGuarantee', 'the message is longer than the guarantees that are held', 'held'],
  [5, 'ZeroAmount', 'the amount is zero'],
  [6, 'NotHeld', 'more would be absolved than is held', 'held'],
  [7, 'BoundTooLarge', 'the bound is above 2^62'],
  [8, 'LimitRaised', 'the bound is above what an earlier limit leaves', 'left'],
  [9, 'PastReceiveLimit', 'more would be issued than the limit on receiving leaves', 'left'],
  [10, 'NoRoom', 'more would be issued than the receiving ring has room for', 'room'],
  [11, 'NothingToAsk', 'the target is not below the guarantees outstanding', 'outstanding'],
  [12, 'TotalReached', 'the guarantees of one channel would pass 2^62'],
  [13, 'QueueFull', 'the outgoing queue is full'],
  [14, 'OutOfMemory', 'out of memory'],
  [15, 'ChannelFinished', 'the channel is finished'],
  [16, 'BufferTooSmall', 'the buffer is too small', 'need'],
  [17, 'WrongVersion', 'version 1 of the format cannot finish a channel'],

  [32, 'NoPeer', 'the handle is empty'],
  [33, 'HasPeer', 'the handle has a peer already'],
  [34, 'NoChannel', 'there is no such channel'],
  [35, 'BadVersion', 'there is no such version of the format'],
  [36, 'BadCapacity', 'a capacity is not 1 to 2^24', 'channel'],
  [37, 'BadSlots', 'the slots are not 1 to 65,536'],
  [38, 'NoCode', 'there is no such code'],
  [39, 'BadSize', 'a struct is shorter than its size has to be', 'needed'],
  [48, 'Empty', 'no message waits'],
  [49, 'Ended', 'no message waits, and none will come'],
  [50, 'Never', 'the message can never be sent'],
  [51, 'Waits', 'the call waits'],
  [52, 'NoNotice', 'no notice is there'],
  [53, 'Notified', 'the offered message can be sent'],
  [64, 'ClosedHere', 'this side closed the session'],
  [65, 'ClosedThere', 'the peer closed the session'],
  [66, 'Cut', 'the stream ended before the peer finished'],
  [67, 'Aborted', 'the session was aborted'],
  [68, 'TransportFailed', 'the transport failed'],

  [101, 'NotGuaranteed', 'a message longer than the guarantees outstanding'],
  [102, 'SentPastLimit', 'a message beyond the limit on sending'],
  [103, 'AbsolvedTooMuch', 'more guarantees absolved than are outstanding'],
  [104, 'SendLimitRaised', 'a limit on sending that raises an earlier one'],
  [105, 'IssuedPastLimit', 'guarantees beyond the limit on receiving'],
  [106, 'TooManyGuarantees', 'more than 2^24 guarantees held'],
  [107, 'ReceiveLimitRaised', 'a limit on receiving that raises an earlier one'],
  [108, 'TotalPassed', 'more than 2^62 guarantees on one channel'],
  [109, 'AfterFinish', 'a frame of the client behind its Finish'],

  [201, 'BadTag', "a byte names no kind or channel, or is not the greeting's"],
  [202, 'ZeroLength', 'a message has length 0'],
  [203, 'BadNumber', 'a number in a frame is out of its range'],
  [204, 'Truncated', 'the stream ends within a frame or a greeting'],
  // codes: end
];

const ROWS = new Map(TABLE.map(([code, kind, sentence, says]) => [code, { kind, sentence, says }]));

/** The kinds of frames, by their codes. */
const KINDS = [
  ,
  // codes: begin kinds
  'Send',
  'Issue',
  'Absolve',
  'Plead',
  'LimitSending',
  'LimitReceiving',
  'Finish',
  // codes: end
];

/** What a frame that violates the rules might have carried, with {n} for the number. */
const ALLOWED = {
  // codes: begin allowed
  101: 'where {n} are outstanding',
  102: "where the sender's limit leaves {n}",
  103: 'where {n} are outstanding',
  104: "where the sender's limit leaves {n}",
  105: "where the receiver's limit leaves {n}",
  106: 'where the sender may hold {n} more',
  107: "where the receiver's limit leaves {n}",
  108: 'where the sender may receive {n} more',
  109: 'after the Finish of the channel',
  // codes: end
};

/** The numbers of the codes, by their names. */
export const Code = Object.freeze(Object.fromEntries(TABLE.map(([code, kind]) => [kind, code])));

/** The first code of a protocol error. */
const FIRST_STOP = 101;

/** The first code of a fault. */
const FIRST_FAULT = 201;

/** Returns the members of an object, with a decimal string for each bigint. */
const shortened = object =>
  Object.fromEntries(Object.entries(object).map(([key, it]) => [key, typeof it === 'bigint' ? String(it) : it]));

/** The error of a refused call, of a configuration or a freed peer, or of a protocol error. */
export class LcmuxError extends Error {
  constructor(code, number) {
    const { kind, sentence, says } = ROWS.get(code);
    super(says ? `${sentence} (${says} ${number})` : sentence);
    this.code = code;
    this.kind = kind;
    this.sentence = sentence;
    this.number = says ? number : undefined;
  }

  /** Whether this is a protocol error: the peer's stream broke the framing or a rule. */
  get isStop() {
    return this.code >= FIRST_STOP;
  }

  /** The members for JSON, which has no bigint: such a number becomes a decimal string. */
  toJSON() {
    const json = { name: this.name, message: this.message, ...shortened(this) };
    return this.frame ? { ...json, frame: shortened(this.frame) } : json;
  }
}
Object.defineProperty(LcmuxError.prototype, 'name', { value: 'LcmuxError', configurable: true, writable: true });

/** Returns a u64 as a number, or as a BigInt where a number would not be exact. */
const exact = long => (long > BigInt(Number.MAX_SAFE_INTEGER) ? long : Number(long));

function saidOf({ kind, channel, number }) {
  const article = /^[AI]/.test(kind) ? 'an' : 'a';
  const name = Object.keys(Channel)[channel];
  return `${article} ${kind}${number === null ? '' : ` of ${number}`} on ${name}`;
}

/** Returns what is wrong, behind the place: of a violation what the frame says and what was allowed. */
function wrongOf({ code, sentence, frame, allowed, byte }) {
  if (code < FIRST_FAULT && frame !== null) {
    return `${saidOf(frame)}, ${ALLOWED[code].replace('{n}', allowed)}`;
  }
  if (frame !== null) {
    return `${sentence} (${saidOf(frame)})`;
  }
  return byte === null ? sentence : `${sentence} (0x${byte.toString(16).padStart(2, '0')})`;
}

/**
 * Makes the protocol error of a code by the numbers behind it in an lcmux_error, of which those are null that are absent:
 * offset, kind, channel, number, allowed and byte.
 */
export function protocolErrorOf(code, longs) {
  const [offset, kind, channel, number, allowed, byte] = longs.map(long => (long === null ? null : exact(long)));
  const frame = kind === null ? null : { kind: KINDS[kind], channel, number };
  const error = Object.assign(new LcmuxError(code), { offset, frame, allowed, byte });
  const label = code < FIRST_FAULT ? `V${code - FIRST_STOP + 1}` : `F${code - FIRST_FAULT + 1}`;
  error.message = `${label} at byte ${offset}: ${wrongOf(error)}`;
  return error;
}

/** Makes the error of a code and its u64. What a limit allows may exceed 2^53, and stays a BigInt. */
export function errorOf(code, long) {
  return new LcmuxError(code, ROWS.get(code).says === 'left' ? long : Number(long));
}
