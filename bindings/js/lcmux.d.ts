// Types of the web platform that this file names. Each declaration is empty and merges with a global one, of the
// library `dom` or of `@types/node`; without one, the file compiles and the type has no members.
declare global {
  interface AbortSignal {}
  interface ReadableStream<R = any> {}
  interface Response {}
  interface URL {}
  interface WritableStream<W = any> {}
  namespace WebAssembly {
    interface Module {}
  }
  interface SymbolConstructor {
    readonly asyncDispose: unique symbol;
  }
}

/**
 * The numbers of the logical channels by their names. Each channel runs in both directions, and the two directions
 * are independent. The application chooses what it sends on which channel.
 */
export declare const Channel: {
  readonly Reconciliation: 0;
  readonly Data: 1;
  readonly Overlap: 2;
  readonly Capability: 3;
  readonly AreaOfInterest: 4;
  readonly PayloadRequest: 5;
  readonly StaticToken: 6;
};
/** The number of a logical channel. */
export type Channel = (typeof Channel)[keyof typeof Channel];

/** All seven channels, in the order of their numbers. */
export declare const CHANNELS: readonly Channel[];

/** The version of the package, and of the module that it accepts. */
export declare const VERSION: string;

/** The numbers of the codes by their names: refusals of calls, violations of rules and faults of the framing. */
export declare const Code: {
  // codes: begin codes
  /** Refusal 1. The message is empty: a message has at least 1 byte. */
  readonly EmptyBody: 1;
  /** Refusal 2. The message is too long: a message has at most 65,535 bytes in version 1 and 1,048,576 in version 2. */
  readonly BodyTooLong: 2;
  /**
   * Refusal 3. The message is longer than this side's limit on sending allows. The error's number is what the limit
   * still allows.
   */
  readonly PastSendLimit: 3;
  /**
   * Refusal 4. The message is longer than the guarantees that this side holds. The error's number is the held
   * guarantees.
   */
  readonly NoGuarantee: 4;
  /** Refusal 5. The amount is zero: at least 1 guarantee is issued or absolved. */
  readonly ZeroAmount: 5;
  /**
   * Refusal 6. The call would absolve more guarantees than this side holds. The error's number is the held guarantees.
   */
  readonly NotHeld: 6;
  /** Refusal 7. The bound of a limit is above 2^62. */
  readonly BoundTooLarge: 7;
  /**
   * Refusal 8. The bound is above what an earlier limit allows: a limit is only ever lowered. The error's number is
   * what the earlier limit still allows.
   */
  readonly LimitRaised: 8;
  /**
   * Refusal 9. The call would issue more than this side's limit on receiving allows. The error's number is what the
   * limit still allows.
   */
  readonly PastReceiveLimit: 9;
  /**
   * Refusal 10. The call would issue more guarantees than the ring buffer has free bytes that are not yet issued. The
   * error's number is what may be issued now.
   */
  readonly NoRoom: 10;
  /**
   * Refusal 11. The target of the plead is not below the outstanding guarantees. The error's number is the outstanding
   * guarantees.
   */
  readonly NothingToAsk: 11;
  /** Refusal 12. The guarantees of the channel would exceed 2^62 in total. */
  readonly TotalReached: 12;
  /** Refusal 13. The outbound queue is full: write some of its frames first. */
  readonly QueueFull: 13;
  /** Refusal 14. An allocation failed. The same call may be made again. */
  readonly OutOfMemory: 14;
  /** Refusal 15. The sender has finished the channel. */
  readonly ChannelFinished: 15;
  /** Refusal 16. The buffer is too short. The error's number is the length that is needed. */
  readonly BufferTooSmall: 16;
  /** Refusal 17. Version 1 of the wire format has no frame that finishes a channel. */
  readonly WrongVersion: 17;
  /** The peer was freed. */
  readonly NoPeer: 32;
  /** The handle has a peer already. The package never makes such a call. */
  readonly HasPeer: 33;
  /** There is no such channel. The package throws a RangeError before. */
  readonly NoChannel: 34;
  /** The version is neither 1 nor 2. */
  readonly BadVersion: 35;
  /** The size of a ring buffer is not in 1 to 2^24. The error's number is the first such channel. */
  readonly BadCapacity: 36;
  /** The slots are not in 1 to 65,536. */
  readonly BadSlots: 37;
  /** {@link Library.text} of a number that is no code. */
  readonly NoCode: 38;
  /**
   * The size in a struct of C is too small: no call of this package returns it. The error's number is the size that it
   * needs.
   */
  readonly BadSize: 39;
  /** No message is available now. Takes return null instead. */
  readonly Empty: 48;
  /** No message will arrive. Takes return {@link ENDED} instead. */
  readonly Ended: 49;
  /** The message can never be sent. {@link Peer.needs} returns `never` instead. */
  readonly Never: 50;
  /** A call of a session of C waits: no call of this package returns it. */
  readonly Waits: 51;
  /** No notice of a session of C is available: no call of this package returns it. */
  readonly NoNotice: 52;
  /** The outcome of an offer to a session of C: no call of this package returns it. */
  readonly Notified: 53;
  /** This side closed a session of C: no call of this package returns it. */
  readonly ClosedHere: 64;
  /** The peer closed a session of C: no call of this package returns it. */
  readonly ClosedThere: 65;
  /** A session of C was cut: no call of this package returns it. */
  readonly Cut: 66;
  /** A session of C was aborted: no call of this package returns it. */
  readonly Aborted: 67;
  /** The transport of a session of C failed: no call of this package returns it. */
  readonly TransportFailed: 68;
  /** Violation V1. The message is longer than the outstanding guarantees. */
  readonly NotGuaranteed: 101;
  /** Violation V2. The message is longer than the sender's limit allows. */
  readonly SentPastLimit: 102;
  /** Violation V3. The frame absolves more guarantees than are outstanding. */
  readonly AbsolvedTooMuch: 103;
  /** Violation V4. The sender's limit is above what an earlier limit allows. */
  readonly SendLimitRaised: 104;
  /** Violation V5. The frame issues more guarantees than the receiver's limit allows. */
  readonly IssuedPastLimit: 105;
  /** Violation V6. The sender would hold more than 2^24 guarantees. */
  readonly TooManyGuarantees: 106;
  /** Violation V7. The receiver's limit is above what an earlier limit allows. */
  readonly ReceiveLimitRaised: 107;
  /** Violation V8. The sender would receive more than 2^62 guarantees in total. */
  readonly TotalPassed: 108;
  /** Violation V9. A frame of the sender follows its Finish. */
  readonly AfterFinish: 109;
  /** Fault F1. The first byte names no kind of frame or no channel, or a byte differs from the preface of version 2. */
  readonly BadTag: 201;
  /** Fault F2. The length of a message is 0. */
  readonly ZeroLength: 202;
  /** Fault F3. A number is out of its range. */
  readonly BadNumber: 203;
  /**
   * Fault F4. The stream ends within a frame or within the preface of version 2. Only the end of the stream shows it.
   */
  readonly Truncated: 204;
  // codes: end
};
/** The name of a code. */
export type Kind = keyof typeof Code;
/** The number of a code. */
export type Code = (typeof Code)[Kind];

/**
 * The error of a refused call, which changed nothing (codes 1 to 17), of a configuration or a freed peer (14, 32 to
 * 37), or of a protocol error of the peer (violations from 101 on, faults from 201 on). An argument of a wrong type
 * or range throws a TypeError or a RangeError instead.
 */
export declare class LcmuxError extends Error {
  constructor(code: Code, number?: number | bigint);
  readonly name: 'LcmuxError';
  readonly code: Code;
  /** The name of the code. */
  readonly kind: Kind;
  /** The sentence of the code, without the number. */
  readonly sentence: string;
  /** The number that belongs to the code. What a limit allows is a bigint, since it may exceed 2^53. */
  readonly number: number | bigint | undefined;
  /** Whether the error is a protocol error: the peer's stream broke the framing or a rule, and the session is over. */
  readonly isStop: boolean;
  /** With {@link Peer.deliver}: how many bytes were consumed before the protocol error. */
  readonly taken?: number;
  /** With {@link Peer.deliver}: how many frames arrived before the protocol error. */
  readonly frames?: number;
  /** With a protocol error: how many bytes of the peer's stream precede the offending frame, the preface among them. */
  readonly offset?: number | bigint;
  /**
   * With a protocol error: the frame that broke a rule, after F2 and F3 the one whose number is out of range, or null
   * after F1 and F4.
   */
  readonly frame?: OffendingFrame | null;
  /**
   * With a protocol error: the most that the number of the frame might have been, or null after the violation V9 and
   * after a fault.
   */
  readonly allowed?: number | bigint | null;
  /** With a protocol error: the byte that is no tag, or that differs from the preface, or null if it is not F1. */
  readonly byte?: number | null;
  /**
   * Returns the error for `JSON.stringify`, with its `name` and `message`. JSON has no bigint: such a number becomes
   * a decimal string.
   */
  toJSON(): LcmuxErrorJson;
}

/** The members of an {@link LcmuxError} that `JSON.stringify` writes. */
export interface LcmuxErrorJson {
  readonly name: string;
  readonly message: string;
  readonly code: Code;
  readonly kind: Kind;
  readonly sentence: string;
  /** A decimal string where the error's number is a bigint. */
  readonly number: number | string | undefined;
  readonly taken?: number;
  readonly frames?: number;
  readonly offset?: number | string;
  readonly frame?: { readonly kind: FrameKind; readonly channel: Channel; readonly number: number | string | null } | null;
  readonly allowed?: number | string | null;
  readonly byte?: number | null;
}

/** The kind of a frame. */
export type FrameKind =
  // codes: begin kinds
  | 'Send'
  | 'Issue'
  | 'Absolve'
  | 'Plead'
  | 'LimitSending'
  | 'LimitReceiving'
  | 'Finish'
  // codes: end
  ;

/** The frame that broke a rule of the protocol. */
export interface OffendingFrame {
  readonly kind: FrameKind;
  readonly channel: Channel;
  /** An amount, a bound or the length of a message, a bigint above 2^53, or null with a Finish. */
  readonly number: number | bigint | null;
}

/**
 * The configuration of a peer. A key whose value is undefined counts as omitted, here and in all options. An unknown
 * key throws a TypeError that names it.
 */
export interface Config {
  /** The version of the outbound stream, 1 by default. The inbound stream may have either version. */
  readonly version?: 1 | 2 | undefined;
  /** The slots of the outbound queue, 1 to 65,536: the most frames that it holds. 16 by default. */
  readonly slots?: number | undefined;
  /**
   * The size of each channel's receive ring buffer in bytes, 1 to 2^24: one number for all channels, or seven. 65,536
   * by default.
   */
  readonly capacities?: number | readonly number[] | undefined;
}

/** The result of a take if no message is available and none will arrive. */
export declare const ENDED: unique symbol;

/** The result of a take: the message, null if none is available now, {@link ENDED} if none will arrive either. */
export type Take<T> = T | null | typeof ENDED;

/** The condition that a message needs before it can be sent. */
export type Needs =
  /** Nothing: a send can fail only if an allocation does. */
  | { readonly kind: 'nothing' }
  /** More guarantees, `missing` of them: deliver inbound bytes. */
  | { readonly kind: 'guarantees'; readonly missing: number }
  /** A slot in the outbound queue: write pending frames. */
  | { readonly kind: 'slot' }
  /**
   * The message can never be sent: it is empty, it is longer than the version or a limit of either side allows, or
   * the channel is finished.
   */
  | { readonly kind: 'never' };

/** The state of a channel that the application can act on. */
export interface Ready {
  /** A message is available. */
  readonly message: boolean;
  /** No message is available, and none will arrive. */
  readonly ended: boolean;
  /** A plead of the receiver is pending. */
  readonly plead: boolean;
  /** This side finished its direction of the channel. */
  readonly finished: boolean;
  /** The peer finished its direction of the channel. */
  readonly finishedThere: boolean;
}

/**
 * The sender's ledger of a channel: the credit of this side as the one that sends. All fields count bytes of
 * messages.
 */
export interface ClientBook {
  /** The guarantees that messages may use now, 0 to 2^24: the send credit. */
  readonly held: number;
  /** All guarantees that arrived: the sum of `held`, `spent`, `absolved` and `waived`. */
  readonly received: bigint;
  /** The guarantees that messages used. */
  readonly spent: bigint;
  /** The guarantees that this side gave back to the receiver. */
  readonly absolved: bigint;
  /** The guarantees that this side waived by finishing the channel, then and since. */
  readonly waived: bigint;
  /** The bytes that this side's limit still allows, or null without a limit. */
  readonly sendLeft: bigint | null;
  /** The guarantees that the receiver may still issue, or null without a limit. */
  readonly receiveLeft: bigint | null;
  /** The target of the pending plead, or null if none is pending. */
  readonly asked: number | null;
  /** Whether this side finished the channel. */
  readonly finished: boolean;
}

/**
 * The receiver's ledger of a channel: the credit that this side issued as the one that receives. All fields count
 * bytes of messages.
 */
export interface ServerBook {
  /** The size of the ring buffer: the sum of `outstanding`, `buffered` and `room`. */
  readonly capacity: number;
  /** All guarantees that this side issued: the sum of `outstanding`, `received`, `absolved` and `waived`. */
  readonly issued: bigint;
  /** All bytes of messages that arrived: the sum of `taken` and `buffered`. */
  readonly received: bigint;
  /** The bytes of messages that were taken. */
  readonly taken: bigint;
  /** The guarantees that the sender gave back. */
  readonly absolved: bigint;
  /**
   * The guarantees that the sender may still use: issued, and not used, absolved or waived as far as this side knows.
   */
  readonly outstanding: number;
  /** The bytes of messages that arrived and were not taken. */
  readonly buffered: number;
  /** The most guarantees that may be issued now. */
  readonly room: number;
  /** The guarantees that the sender's Finish waived. */
  readonly waived: bigint;
  /** The bytes that the sender may still send, or null without a limit. */
  readonly sendLeft: bigint | null;
  /** The guarantees that this side's limit still allows, or null without a limit. */
  readonly receiveLeft: bigint | null;
  /** Whether the sender's Finish arrived. */
  readonly finished: boolean;
}

/**
 * One side of a session as a state machine: the application passes inbound bytes to it and fetches outbound bytes
 * from it. The transport belongs to the application. A refused call throws an {@link LcmuxError} and changes nothing.
 */
export declare class Peer {
  private constructor();
  /** The version of the outbound stream. */
  readonly version: 1 | 2;

  /**
   * Enqueues a copy of the body as one message: 1 to 65,535 bytes, in version 2 1 to 1,048,576.
   *
   * @throws {LcmuxError} The first of these that applies: `ChannelFinished`, `EmptyBody`, `BodyTooLong`,
   *   `PastSendLimit`, `NoGuarantee`, `OutOfMemory`, `QueueFull`.
   */
  send(channel: Channel, body: Uint8Array): void;
  /**
   * Issues `amount` guarantees: the sender may send that many bytes more.
   *
   * @throws {LcmuxError} The first of these that applies: `ChannelFinished`, `ZeroAmount`, `PastReceiveLimit`,
   *   `NoRoom`, `TotalReached`, `QueueFull`.
   */
  issue(channel: Channel, amount: number): void;
  /**
   * Absolves: gives `amount` guarantees back to the receiver.
   *
   * @throws {LcmuxError} The first of these that applies: `ChannelFinished`, `ZeroAmount`, `NotHeld`, `QueueFull`.
   */
  absolve(channel: Channel, amount: number): void;
  /**
   * Pleads: asks the sender to absolve guarantees until it holds at most `target`.
   *
   * @throws {LcmuxError} The first of these that applies: `ChannelFinished`, `NothingToAsk`, `QueueFull`.
   */
  plead(channel: Channel, target: number): void;
  /**
   * Honours the pending plead: absolves the guarantees above its target and returns how many these are. The plead is
   * no longer pending.
   *
   * @throws {LcmuxError} The first of these that applies: `ChannelFinished`, `QueueFull`. The latter leaves the plead
   *   pending.
   */
  honour(channel: Channel): number;
  /**
   * Limits sending to at most `bound` bytes from here on; 0 ends the channel.
   *
   * @throws {LcmuxError} The first of these that applies: `ChannelFinished`, `BoundTooLarge`, `LimitRaised`,
   *   `QueueFull`.
   */
  limitSending(channel: Channel, bound: number | bigint): void;
  /**
   * Limits issuing to at most `bound` guarantees from here on.
   *
   * @throws {LcmuxError} The first of these that applies: `ChannelFinished`, `BoundTooLarge`, `LimitRaised`,
   *   `QueueFull`.
   */
  limitReceiving(channel: Channel, bound: number | bigint): void;
  /**
   * Finishes the channel: this side sends nothing more on it and waives all guarantees that it holds or that still
   * arrive. The receiver observes the end of the channel. Version 1 has no such frame; there, `limitSending(channel,
   * 0)` ends a channel.
   *
   * @throws {LcmuxError} The first of these that applies: `WrongVersion`, `ChannelFinished`, `QueueFull`.
   */
  finish(channel: Channel): void;

  /**
   * Returns the error that a {@link send} of `length` bytes would throw, apart from `OutOfMemory`, or null. So the
   * application need not build a body before it can be sent. These queries change nothing and apply the same rules as
   * the calls.
   */
  wouldSend(channel: Channel, length: number): LcmuxError | null;
  /** Returns the error that {@link issue} would throw, or null. */
  wouldIssue(channel: Channel, amount: number): LcmuxError | null;
  /** Returns the error that {@link absolve} would throw, or null. */
  wouldAbsolve(channel: Channel, amount: number): LcmuxError | null;
  /** Returns the error that {@link plead} would throw, or null. */
  wouldPlead(channel: Channel, target: number): LcmuxError | null;
  /** Returns what {@link honour} would return, or the error that it would throw. */
  wouldHonour(channel: Channel): LcmuxError | number;
  /** Returns the error that {@link limitSending} would throw, or null. */
  wouldLimitSending(channel: Channel, bound: number | bigint): LcmuxError | null;
  /** Returns the error that {@link limitReceiving} would throw, or null. */
  wouldLimitReceiving(channel: Channel, bound: number | bigint): LcmuxError | null;
  /** Returns the error that {@link finish} would throw, or null. */
  wouldFinish(channel: Channel): LcmuxError | null;
  /**
   * Returns the condition that a message of `length` bytes needs before it can be sent. A sender does not know the
   * size of the receiver's ring buffer: a message longer than the ring needs guarantees that never arrive.
   */
  needs(channel: Channel, length: number): Needs;
  /** Returns how many slots of the outbound queue are free. */
  slotsLeft(): number;
  /** Returns whether any outbound bytes are pending: the preface, the rest of a frame, or a whole frame. */
  wantsWrite(): boolean;
  /** Returns the state of each channel, indexed by the channel's number. */
  ready(): Ready[];

  /**
   * Processes the next chunk of the inbound stream, which may be cut anywhere, and returns how many frames arrived.
   * The beginning of an incomplete frame is kept.
   *
   * @throws {LcmuxError} A violation or a fault. The frames before it have arrived, each further call throws the same
   *   error, and all other calls still work.
   */
  deliver(bytes: Uint8Array): number;
  /**
   * Checks that the inbound stream may end here. It changes nothing.
   *
   * @throws {LcmuxError} {@link Code.Truncated} inside a frame or inside the preface; the protocol error of an
   *   earlier {@link deliver} if there was one.
   */
  end(): void;
  /** Returns the next outbound bytes as a new array: all pending bytes, or at most `most`. The bytes count as sent. */
  write(most?: number): Uint8Array;
  /**
   * Copies the next outbound bytes to the front of `buffer` and returns how many they are. A frame that does not fit
   * continues in the next call. The bytes count as sent.
   */
  writeInto(buffer: Uint8Array): number;
  /**
   * Returns the next outbound bytes, at most 16,384; an empty array if none are pending. The bytes stay pending until
   * {@link advance} reports how many of them were written. So an abandoned write loses nothing.
   */
  chunk(): Uint8Array;
  /**
   * Marks the first `count` bytes of the {@link chunk} as written.
   *
   * @throws {RangeError} If `count` is above the length of the chunk; nothing changes then.
   */
  advance(count: number): void;
  /** Returns how many outbound bytes are pending. It visits each frame of the outbound queue. */
  pending(): number;

  /** Returns the length of the first message, which stays. */
  frontLength(channel: Channel): Take<number>;
  /**
   * Borrows the first message without copying it; the message stays. It is the bytes of the first array followed by
   * those of the second one, which is empty unless the message crosses the wrap point of its ring buffer. Both arrays
   * are views of the module's memory: read them only, and only until the next call of any peer of the same `load`.
   */
  front(channel: Channel): Take<readonly [Uint8Array, Uint8Array]>;
  /** Drops the first message and returns its length. Its bytes become free in the ring buffer. */
  pop(channel: Channel): Take<number>;
  /** Takes the first message as a new array. Its bytes become free in the ring buffer. */
  take(channel: Channel): Take<Uint8Array>;
  /**
   * Copies the first message to the front of `buffer`, drops it and returns its length.
   *
   * @throws {LcmuxError} {@link Code.BufferTooSmall} if the buffer is shorter than the message; the message stays
   *   then.
   */
  takeInto(channel: Channel, buffer: Uint8Array): Take<number>;

  /** Returns the sender's ledger of a channel. */
  client(channel: Channel): ClientBook;
  /** Returns the receiver's ledger of a channel. */
  server(channel: Channel): ServerBook;

  /**
   * Frees the memory of the peer. Each later call throws {@link Code.NoPeer}. A peer that is unreachable is freed
   * eventually.
   */
  free(): void;
}

/** The two byte streams of a session: the inbound and the outbound one. */
export interface Streams {
  /** The inbound stream. */
  readonly readable: ReadableStream<Uint8Array>;
  /** The outbound stream. */
  readonly writable: WritableStream<Uint8Array>;
}

/** An instance of the module with its own memory, which its peers share. After a trap each of its calls throws. */
export interface Library {
  /** The version of the module: 65,536 times its first number, plus 256 times its second, plus its third. */
  readonly version: number;
  /** Whether a call trapped. */
  readonly hasTrapped: boolean;
  /** Returns the sentence of a code. */
  text(code: number): string;
  /**
   * Makes a peer on which nothing has happened.
   *
   * @throws {LcmuxError} The first of these that applies: `BadVersion`, `BadCapacity`, `BadSlots`, `OutOfMemory`.
   */
  peer(config?: Config): Peer;
  /**
   * Opens a session as {@link open} does, with a peer of this module.
   *
   * @throws {RangeError} If the slots are below 14, or a low-water mark is not in 1 to the size of its ring buffer.
   */
  open(streams: Streams, config?: SessionConfig): Session;
}

/** The source of the module: a URL, its bytes, a response with its bytes, or a compiled module. */
export type Source = URL | ArrayBuffer | ArrayBufferView | Response | (WebAssembly.Module & object);

/**
 * Compiles and instantiates the module, by default from the package's own file. A bundler may not copy that file; then
 * pass the module.
 */
export declare function load(source?: Source | PromiseLike<Source>, options?: WaitOptions): Promise<Library>;

/**
 * When a channel issues the free bytes of its ring buffer as guarantees. `'at once'`: the whole ring at the
 * beginning, and all free bytes as soon as they are free. `{ lowWater }`: the whole ring at the beginning, and all
 * free bytes once fewer than `lowWater` guarantees are outstanding, in fewer frames. `'by caller'`: only what {@link
 * SessionChannel.issue} issues. A message longer than the mark may wait forever: set the mark to at least the longest
 * message, and the ring to twice the mark.
 */
export type IssuePolicy = 'at once' | { readonly lowWater: number } | 'by caller';

/**
 * When a channel honours the receiver's pleads: as soon as one arrives, or when the application calls {@link
 * SessionChannel.honour}.
 */
export type PleadPolicy = 'at once' | 'by caller';

/** The configuration of a session: that of its peer, and the policies of its channels, one for all or seven. */
export interface SessionConfig extends Config {
  /**
   * The slots of the outbound queue, 14 to 65,536; 64 by default. Seven are reserved for control frames, one belongs
   * to each channel, and the others are shared by the messages of all channels.
   */
  readonly slots?: number | undefined;
  /**
   * When guarantees are issued, `'at once'` by default. A low-water mark is in 1 to the size of the ring buffer, else
   * a RangeError is thrown.
   */
  readonly issue?: IssuePolicy | readonly IssuePolicy[] | undefined;
  /** When pleads are honoured, `'at once'` by default. */
  readonly plead?: PleadPolicy | readonly PleadPolicy[] | undefined;
  /**
   * Aborts the session, with the signal's reason as the cause. If the signal aborts before there is a session, that
   * reason is the error of the call, and the streams stay the caller's.
   */
  readonly signal?: AbortSignal | undefined;
}

/**
 * Opens a session over two streams, which belong to the session from here on. The sessions share one instance of the
 * module, whose memory has at most 2 GiB; a session that does not fit gets a further one.
 *
 * @throws {LcmuxError} The errors of {@link Library.peer}.
 * @throws {RangeError} If the slots are below 14, or a low-water mark is not in 1 to the size of its ring buffer.
 */
export declare function open(streams: Streams, config?: SessionConfig): Promise<Session>;

/**
 * The reason why a session ended. `Local`: this side closed it. `Remote`: the peer closed it in order; this side may
 * still send what it holds guarantees for. `Cut`: the peer's stream ended while channels of it were unfinished.
 * `Aborted`: this side aborted it. `Transport`: a stream failed; the error is the cause. `Stopped`: the peer's stream
 * broke the framing or a rule; the cause is an {@link LcmuxError}.
 */
export type SessionEnd = 'Local' | 'Remote' | 'Cut' | 'Aborted' | 'Transport' | 'Stopped';

/** The error of a call that cannot proceed: the session, or the part of it that the call needs, has ended. */
export declare class SessionClosed extends Error {
  constructor(kind: SessionEnd, cause?: unknown);
  readonly name: 'SessionClosed';
  /** The reason of the end. */
  readonly kind: SessionEnd;
  /** The cause of the end: the error of a stream, a protocol error, or the argument of {@link Session.abort}. */
  readonly cause?: unknown;
}

/** Options of a call that waits. If the signal aborts, the call rejects with the signal's reason and has no effect. */
export interface WaitOptions {
  /** Cancels the wait. */
  readonly signal?: AbortSignal | undefined;
}

/** The statistics of a channel, in both directions. */
export interface Stats {
  /** The messages that were accepted to be sent. */
  readonly messagesSent: number;
  /** The bytes of these messages. */
  readonly bytesSent: number;
  /** The messages that were received. */
  readonly messagesReceived: number;
  /** The bytes of these messages. */
  readonly bytesReceived: number;
  /** The most bytes of messages that the ring buffer held at once. */
  readonly mostBuffered: number;
  /** The time in which the first waiting send lacked guarantees, in milliseconds. A send that still waits counts. */
  readonly waitedForGuarantees: number;
  /**
   * The time in which that send had its guarantees and waited for the outbound queue, in milliseconds: for a slot, or
   * for its bytes.
   */
  readonly waitedForSlots: number;
}

/** This side of a session over two streams. */
export declare class Session {
  private constructor();
  /** Returns the channel with this number. */
  channel(channel: Channel): SessionChannel;
  /** Returns the statistics of the channel. */
  stats(channel: Channel): Stats;
  /** The first reason why the session is over, or null while it is not. All waiting calls reject with it. */
  readonly reason: SessionClosed | null;
  /**
   * Resolves once the session has ended in order: both sides have finished all their channels and ended their
   * streams. Rejects with the reason, at once, if the session ends by anything else.
   */
  readonly closed: Promise<void>;
  /**
   * Closes the session in order: rejects the waiting sends, writes all accepted messages, finishes every open
   * channel, and ends this side's stream. Messages of the peer can still be received, but no more guarantees are
   * issued. Returns {@link closed}, which waits until the peer has closed, too. A signal that aborts rejects this wait
   * with its reason; the session goes on closing. A signal that has aborted already closes nothing.
   */
  close(options?: WaitOptions): Promise<void>;
  /**
   * Ends the session at once. Messages that were not written are lost, and so may be written ones that the peer has
   * not read yet. Nothing more is received here.
   */
  abort(cause?: unknown): void;
  /** Closes the session in order and waits for the peer, as {@link close}, unless it is over: for `await using`. */
  [Symbol.asyncDispose](): Promise<void>;
}

/**
 * A channel of a session. Iterate over it to receive its messages.
 *
 * Calls that do not wait throw an {@link LcmuxError} as those of {@link Peer} do, but never for want of a slot: a
 * control frame that finds no slot stays pending, as one amount for each channel and kind, and precedes messages.
 * Once this side is closed or the session is over, they throw a {@link SessionClosed}.
 */
export declare class SessionChannel implements AsyncIterable<Uint8Array> {
  private constructor();
  /**
   * Sends a message. It waits for guarantees and for a slot in the outbound queue, behind the sends that already wait
   * on this channel. A body that has to wait is copied. A message longer than the peer's ring buffer waits until the
   * session ends.
   *
   * @throws {LcmuxError} `ChannelFinished`, `EmptyBody`, `BodyTooLong` or `PastSendLimit` if the call is not allowed;
   *   `Never` if the receiver will not issue enough guarantees; `OutOfMemory` if an allocation failed.
   * @throws {SessionClosed} Once the session is closed or over, or if guarantees are missing and the peer closed the
   *   session.
   */
  send(body: Uint8Array, options?: WaitOptions): Promise<void>;
  /**
   * Finishes the channel: this side sends nothing more on it and waives its guarantees, and the peer's iteration
   * ends. In version 1 a limit of 0 ends the channel. It does not wait: sends that already wait precede it, and later
   * sends are refused, by `ChannelFinished` or in version 1 by `PastSendLimit`.
   *
   * @throws {LcmuxError} `ChannelFinished` if the channel is finished already.
   */
  finish(): void;
  /**
   * Limits sending to at most `bound` bytes from here on; 0 ends the channel. It does not wait: sends that already
   * wait precede it, and a later send of more bytes is refused.
   *
   * @throws {LcmuxError} The first of these that applies: `ChannelFinished`, `BoundTooLarge`, `LimitRaised`.
   */
  limitSending(bound: number | bigint): void;
  /**
   * Absolves: gives `amount` guarantees back to the receiver, also guarantees that a send waits to use.
   *
   * @throws {LcmuxError} The first of these that applies: `ChannelFinished`, `ZeroAmount`, `NotHeld`.
   */
  absolve(amount: number): void;
  /** The guarantees that sends may use; 0 once the session is over. */
  readonly held: number;
  /**
   * The target of the receiver's last plead: the most guarantees that this side should hold. Null once the plead was
   * honoured.
   */
  readonly pleaded: number | null;
  /**
   * Honours the receiver's last plead, if the policy leaves that to the application. It absolves the guarantees above
   * the target and returns how many these are.
   *
   * @throws {LcmuxError} `ChannelFinished` if the channel is finished.
   */
  honour(): number;

  /**
   * Receives the next message, and waits for it. Returns null once the channel has ended.
   *
   * @throws {SessionClosed} Once the session is over and all messages that arrived were received. After an abort at
   *   once: the messages that arrived are dropped.
   */
  receive(options?: WaitOptions): Promise<Uint8Array | null>;
  /** Iterates over the messages until the channel ends. It throws what {@link receive} rejects with. */
  [Symbol.asyncIterator](): AsyncIterableIterator<Uint8Array>;
  /** The same iteration, which the signal cancels: it then throws the signal's reason. */
  values(options?: WaitOptions): AsyncIterableIterator<Uint8Array>;
  /**
   * The messages as a stream, one as each chunk, always the same object. A message is received when its reader asks for
   * one, so backpressure reaches the peer. Cancelling it limits receiving to 0: the peer's sends that lack guarantees
   * reject with `Never`.
   */
  readonly readable: ReadableStream<Uint8Array>;
  /**
   * A stream whose chunks are sent as messages, always the same object. A chunk is cut into messages of at most 16,384
   * bytes, and of no more than the guarantees allow, so it proceeds over a ring buffer of any size; the peer should not
   * rely on the cuts. A chunk is not copied while it waits: leave it unchanged until its write has resolved. Closing
   * the stream finishes the channel. Aborting it aborts the session, since the protocol has no other end from which the
   * peer would see that bytes are missing. A stream that is open when the session ends, in order too, fails with its
   * reason.
   */
  readonly writable: WritableStream<Uint8Array>;
  /** The free bytes of the ring buffer that may be issued now; 0 once the session is over. */
  readonly room: number;
  /**
   * Issues `amount` guarantees, beside those that the policy issues.
   *
   * @throws {LcmuxError} `ChannelFinished`, `ZeroAmount`, `PastReceiveLimit`, `NoRoom` or `TotalReached`.
   */
  issue(amount: number): void;
  /**
   * Sets the issue policy from here on. It also issues what an earlier plead kept back.
   *
   * @throws {RangeError} If a low-water mark is not in 1 to the size of the ring buffer.
   */
  setIssuePolicy(policy: IssuePolicy): void;
  /**
   * Pleads: asks the sender to hold at most `target` guarantees and to absolve the others. From here on the policy
   * issues no more than `target`, until the policy is set again.
   *
   * @throws {LcmuxError} The first of these that applies: `ChannelFinished`, `NothingToAsk`.
   */
  plead(target: number): void;
  /**
   * Limits issuing to at most `bound` guarantees from here on.
   *
   * @throws {LcmuxError} The first of these that applies: `ChannelFinished`, `BoundTooLarge`, `LimitRaised`.
   */
  limitReceiving(bound: number | bigint): void;
}

/** The members of a WebSocket that {@link fromWebSocket} uses. */
export interface WebSocketLike {
  binaryType: string;
  readonly readyState: number;
  readonly bufferedAmount: number;
  send(bytes: Uint8Array): void;
  close(code?: number): void;
  addEventListener(type: string, listener: (event: any) => void, options?: { once?: boolean }): void;
  removeEventListener(type: string, listener: (event: any) => void): void;
}

/**
 * Makes the two streams of a WebSocket, and waits until it is open. A WebSocket has no half-close, so an empty
 * message means that its sender writes no more: use this function on both sides.
 *
 * A write waits while the WebSocket has more than 2^20 bytes to send, and fails if the WebSocket is closing, which
 * would drop its bytes silently.
 *
 * A message that is no bytes, such as a text, fails both streams and closes the WebSocket with the code 1003, or 4003
 * in a browser, where a page may not use 1003. A message that arrives before this call is lost: in a server, call it
 * in the handler of the new connection, before any await.
 *
 * A signal that aborts before the WebSocket is open closes it, and the call rejects with the signal's reason.
 *
 * @throws {Error} If the WebSocket is closed, or closes before it is open.
 */
export declare function fromWebSocket(socket: WebSocketLike, options?: WaitOptions): Promise<Streams>;
