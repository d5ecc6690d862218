import { CHANNELS } from './channel.js';
import { SessionClosed, isAnswer, stopOf } from './closed.js';
import { Code, LcmuxError } from './codes.js';
import { Copies } from './copies.js';
import { Incoming } from './incoming.js';
import { Outgoing } from './outgoing.js';
import { PLEADED } from './peer.js';
import { Slots } from './slots.js';
import { Stats } from './stats.js';

/** The most bytes of one write of the stream. */
const PIECE = 65_536;

/**
 * A peer and its two streams. Each change ends with `settle`, the scheduler: it enqueues pending control frames and
 * completes the sends that can proceed. So no call waits needlessly between two changes.
 */
export class Link {
  /** The reason why the session is over, null while it is not. */
  reason = null;
  /** Whether this side is closed: accepted messages are still written, and no more are accepted. */
  isClosing = false;
  copies = new Copies();
  #peer;
  #reader;
  #writer;
  #slots;
  #stats = CHANNELS.map(() => new Stats());
  #senders;
  #receivers;
  // The directions of channels that may have pending control frames, in the order in which they got them.
  #owing = new Set();
  // The receivers whose rings may have room to issue by policy: it is issued when the writing half takes frames again, or
  // waits for one.
  #freed = new Set();
  #isStirred = false;
  // The number of messages so far.
  #turns = 0;
  // Whether the writing half waits for a frame, and the function that wakes it.
  #isIdle = false;
  #wake = () => {};
  // Whether the peer ended its stream in order, with all its channels finished; and whether this side's stream has ended.
  #hasHeardAll = false;
  #hasSaidAll = false;
  #settleEnd;
  #local = new SessionClosed('Local');
  #remote = new SessionClosed('Remote');

  constructor(peer, { reader, writer }, { issue, plead }) {
    this.#peer = peer;
    this.#reader = reader;
    this.#writer = writer;
    this.#slots = new Slots(peer.slotsLeft());
    this.#senders = CHANNELS.map(it => new Outgoing(this, peer, it, plead[it], this.#stats[it]));
    this.#receivers = CHANNELS.map(it => new Incoming(this, peer, it, issue[it], this.#stats[it]));
    this.ended = new Promise((resolve, reject) => {
      this.#settleEnd = () => (this.reason === this.#local ? resolve() : reject(this.reason));
    });
    this.ended.catch(() => {}); // an unobserved end is no unhandled rejection: waiting calls report it
  }

  sender(channel) {
    return this.#senders[channel];
  }

  receiver(channel) {
    return this.#receivers[channel];
  }

  stats(channel) {
    return this.#stats[channel].get();
  }

  start() {
    this.#receivers.forEach(it => this.owes(it));
    this.settle();
    const fail = error => this.end(new SessionClosed('Transport', error));
    this.#readAll().catch(fail);
    this.#writeAll().catch(fail);
    this.#writer.closed.catch(fail);
  }

  /**
   * Closes the session in order: accepted messages are written, every channel is finished, and then this side's
   * stream ends.
   */
  close() {
    if (!this.isClosing && this.reason === null) {
      this.change(() => {
        this.#issueFreed(); // and no guarantees are issued after this
        this.#senders.forEach(it => {
          it.finishOnce();
          this.owes(it); // also what is pending behind a call that is about to be refused
        });
        this.isClosing = true;
        this.#senders.forEach(it => it.refuse(this.#local));
        this.#ring();
      });
    }
    return this.ended;
  }

  /** Ends the session, unless it is over: each waiting call ends with the reason. */
  end(reason) {
    if (this.reason !== null) {
      return;
    }
    this.reason = reason;
    this.#keep(reason.kind !== 'Aborted');
    this.#senders.forEach(it => it.refuse(reason));
    this.#receivers.forEach(it => it.release());
    this.#free();
    this.#reader.cancel(reason).catch(() => {});
    this.#writer.abort(reason).catch(() => {});
    this.#ring();
    this.#settleEnd();
  }

  /** Throws if no frame may be sent any more. */
  mayGoOut() {
    if (this.reason !== null || this.isClosing) {
      throw this.reason ?? this.#local;
    }
  }

  /** Throws if no more guarantees will arrive. */
  mayHear() {
    if (this.#hasHeardAll) {
      throw this.#remote;
    }
  }

  /** Makes a change, and runs the scheduler. */
  change(call) {
    try {
      return this.#guard(call);
    } finally {
      this.settle();
    }
  }

  /**
   * Makes a change that only frees room of a ring. An active writing half issues at its next write all room that is free
   * by then, in one frame.
   */
  take(call) {
    try {
      return this.#guard(call);
    } finally {
      if (this.#isIdle) {
        this.settle();
      }
    }
  }

  /** Makes a call of a sender that does not wait, after pending control frames were enqueued. */
  control(call) {
    return this.change(() => {
      this.#flush();
      return call();
    });
  }

  /** Makes a call of a receiver that does not wait, after the room that was freed was issued. */
  controlRoom(call) {
    return this.change(() => {
      this.#issueFreed();
      return call();
    });
  }

  /** Records that a direction of a channel has, or may have, pending control frames. */
  owes(end) {
    this.#owing.add(end);
    this.#isStirred = true;
  }

  /** Records that the ring of a receiver has, or may have, room to issue by policy. */
  frees(receiver) {
    this.#freed.add(receiver);
  }

  /** Whether there is a slot for a control frame. */
  get hasSlot() {
    return this.#slots.hasControl;
  }

  /**
   * Enqueues a control frame that was validated when its call was made. It may no longer apply: the channel may be
   * finished, or an equivalent refusal may apply by now.
   */
  enqueue(call, stale) {
    try {
      call();
    } catch (error) {
      if (!(error instanceof LcmuxError) || ![Code.ChannelFinished, stale].includes(error.code)) {
        throw error;
      }
    }
    this.#slots.follow(this.#peer.slotsLeft());
  }

  /**
   * Returns whether a message of this length that has its guarantees may enter the queue now: there is a slot, its
   * bytes fit, and no channel that sent less recently waits for these bytes.
   */
  fits(sender, length) {
    const isBefore = other => other.went < sender.went && other.isAble && this.#slots.hasFor(other.channel);
    return this.#slots.hasFor(sender.channel) && this.#slots.hasBytes(length) && !this.#senders.some(isBefore);
  }

  /** Counts a message of this length that entered the queue. */
  sent(sender, length) {
    this.#slots.enter(sender.channel, length);
    this.#turns += 1;
    sender.went = this.#turns;
  }

  /** The scheduler: enqueues pending control frames, and completes the sends that can proceed. */
  settle() {
    try {
      if (this.#isIdle) {
        this.#issueFreed();
      }
      while (this.reason === null && this.#goOn());
      if (this.#isIdle && this.reason === null && this.#peer.wantsWrite()) {
        this.#ring();
      }
    } catch (error) {
      this.end(new SessionClosed('Aborted', error));
    }
  }

  // An error that belongs to no call ends the session: the module trapped.
  #guard(call) {
    try {
      return call();
    } catch (error) {
      if (isAnswer(error)) {
        throw error;
      }
      this.end(new SessionClosed('Aborted', error));
      throw this.reason;
    }
  }

  // Makes one step. Returns whether there may be others.
  #goOn() {
    this.#isStirred = false;
    this.#flush();
    const next = this.#next();
    next?.complete();
    return next !== null || this.#isStirred;
  }

  // Issues the room that was freed, behind the control frames that are pending.
  #issueFreed() {
    this.#freed.forEach(it => this.owes(it));
    this.#freed.clear();
    this.#flush();
  }

  // Enqueues the pending control frames of each direction, as long as there are slots.
  #flush() {
    if (this.reason !== null || !this.hasSlot) {
      return;
    }
    for (const end of this.#owing) {
      if (!end.flush()) {
        return;
      }
      this.#owing.delete(end);
    }
  }

  // The sender whose first call proceeds next: of those with guarantees and a slot, the one that sent least recently.
  // If its bytes do not fit, no later one overtakes it, except one that never sent, if the first never sent either.
  #next() {
    const able = this.#senders.filter(it => it.isAble && this.#slots.hasFor(it.channel));
    const went = Math.min(...able.map(it => it.went));
    return able.find(it => it.went === went && this.#slots.hasBytes(it.length)) ?? null;
  }

  // Messages that arrived can still be received, unless the module trapped.
  #keep(isKept) {
    try {
      this.#receivers.forEach(it => it.close(isKept));
    } catch {
      this.#receivers.forEach(it => it.close(false)); // the module trapped
    }
  }

  // A module that traps at last keeps no session from its end.
  #free() {
    try {
      this.#peer.free();
    } catch {
      // No further call of the module is made.
    }
  }

  async #readAll() {
    while (!this.#hasHeardAll) {
      const { done, value } = await this.#reader.read();
      if (this.reason !== null) {
        return;
      }
      this.change(() => (done ? this.#hearEnd() : this.#deliver(value)));
    }
    this.#endIfDone();
  }

  #deliver(bytes) {
    try {
      this.#peer.deliver(bytes);
    } catch (error) {
      if (error instanceof LcmuxError) {
        this.#arrived(); // the frames before the protocol error
        this.settle();
      }
      this.end(stopOf(error));
      return;
    }
    this.#arrived();
  }

  // Notifies the calls that inbound frames let proceed.
  #arrived() {
    this.#receivers.forEach(it => it.arrived());
    this.#senders.forEach(it => it.arrived());
    this.#peer[PLEADED]().forEach(channel => this.owes(this.#senders[channel]));
  }

  // Records the end of the peer's stream: in order if the peer had finished all its channels, else the stream was
  // cut.
  #hearEnd() {
    try {
      this.#peer.end();
    } catch (error) {
      this.end(stopOf(error));
      return;
    }
    if (!this.#receivers.every(it => it.isFinishedThere)) {
      this.end(new SessionClosed('Cut'));
      return;
    }
    this.#hasHeardAll = true;
    this.#senders.forEach(it => it.arrived());
  }

  // No more bytes are fetched from the peer than the stream accepts.
  async #writeAll() {
    while (this.reason === null) {
      const piece = this.change(() => this.#pull());
      if (piece.length > 0) {
        await this.#writer.write(piece);
      } else if (this.isClosing) {
        await this.#writer.close();
        this.#hasSaidAll = true;
        this.#endIfDone();
        return;
      } else {
        await this.#slept();
      }
    }
  }

  #pull() {
    this.#issueFreed();
    const piece = this.#peer.write(PIECE);
    this.#slots.leave(piece.length, this.#peer.slotsLeft());
    return piece;
  }

  #slept() {
    this.#isIdle = true;
    return new Promise(resolve => (this.#wake = resolve));
  }

  #ring() {
    this.#isIdle = false;
    this.#wake();
  }

  #endIfDone() {
    if (this.#hasHeardAll && this.#hasSaidAll) {
      this.end(this.#local);
    }
  }
}
