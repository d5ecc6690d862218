import { part, sizeOf } from './bytes.js';
import { isAnswer } from './closed.js';
import { Code, LcmuxError } from './codes.js';
import { Line } from './line.js';
import { AT_ONCE } from './policy.js';

/** Throws a refusal, unless only a slot is missing: then the control frame stays pending. */
export function judge(refusal) {
  if (refusal !== null && refusal.code !== Code.QueueFull) {
    throw refusal;
  }
}

const least = (a, b) => (a < b ? a : b);

/** A channel in the direction in which this side sends. */
export class Outgoing {
  /** When the channel sent last, counted in messages of all channels; 0 before its first. */
  went = 0;
  channel;
  #link;
  #peer;
  #policy;
  #stats;
  #line = new Line(() => this.#link.change(() => this.#mayGoOn()));
  // Whether the first call may have changed and is evaluated again; and whether it has its guarantees.
  #isStale = false;
  #isAble = false;
  // The guarantees of a pending absolve, and whether a call asked to honour the plead.
  #absolved = 0;
  #honours = false;
  // Whether this side finished the channel: in version One by a limit.
  #isFinished = false;

  constructor(link, peer, channel, policy, stats) {
    this.#link = link;
    this.#peer = peer;
    this.channel = channel;
    this.#policy = policy;
    this.#stats = stats;
  }

  /** Sends a message, or returns a promise that waits in the queue. The body of a waiting send is copied. */
  send(bytes, signal) {
    this.#mayGoOut();
    const length = sizeOf(bytes);
    const lack = this.#lacks(length);
    this.#line.judge(length);
    if (lack === 'slots' && this.#line.isEmpty && this.#link.fits(this, length)) {
      return this.#put(bytes);
    }
    this.#isStale ||= this.#line.isEmpty;
    return this.#line.join({ length, body: this.#link.copies.of(bytes) }, signal);
  }

  /**
   * Sends as much of these bytes as the guarantees allow, and at most `most` of them, as one message. Returns how many,
   * or a promise of that. The bytes of a waiting call are not copied.
   */
  sendPart(bytes, most, signal) {
    this.#mayGoOut();
    const length = this.#partOf(sizeOf(bytes), most);
    const lack = this.#lacks(length);
    this.#line.judge(length);
    if (lack === 'slots' && this.#line.isEmpty && this.#link.fits(this, length)) {
      this.#put(part(bytes, 0, length));
      return length;
    }
    this.#isStale ||= this.#line.isEmpty;
    const lengthNow = () => this.#partOf(sizeOf(bytes), most);
    const call = {
      body: bytes,
      isPart: true,
      get length() {
        return lengthNow();
      },
    };
    return this.#line.join(call, signal);
  }

  // How much of a size the guarantees allow, at least one byte, which may have to wait.
  #partOf(size, most) {
    return Math.min(size, most, Math.max(this.#free, 1));
  }

  /** The guarantees that a message may use. */
  get held() {
    return this.#peer.client(this.channel).held - this.#absolved;
  }

  /** The target of the pending plead, null if there is none. */
  get pleaded() {
    return this.#peer.client(this.channel).asked;
  }

  absolve(amount) {
    this.#mayGoOut();
    judge(this.#peer.wouldAbsolve(this.channel, amount));
    const { held } = this;
    if (amount > held) {
      throw new LcmuxError(Code.NotHeld, held);
    }
    this.#absolved += amount;
    this.#link.owes(this);
  }

  /** Returns how many guarantees are absolved. */
  honour() {
    this.#mayGoOut();
    const target = this.pleaded;
    const amount = target === null ? 0 : Math.max(0, this.held - target);
    this.#honours = true;
    this.#link.owes(this);
    return amount;
  }

  limit(bound) {
    this.#mayGoOut();
    judge(this.#peer.wouldLimitSending(this.channel, bound));
    const { left } = this.#line;
    if (left !== null && bound > left) {
      throw new LcmuxError(Code.LimitRaised, left);
    }
    this.#line.limit(bound);
    this.#link.owes(this);
  }

  /** Finishes the channel: in version One, which has no Finish, by a limit of 0. */
  finish() {
    this.#mayGoOut();
    if (this.#peer.version !== 1) {
      judge(this.#peer.wouldFinish(this.channel));
      this.#line.finish();
    } else if ((this.#line.left ?? this.#peer.client(this.channel).sendLeft) === 0n) {
      throw new LcmuxError(Code.ChannelFinished);
    } else {
      this.#line.limit(0n);
    }
    this.#isFinished = true;
    this.#link.owes(this);
  }

  /** Finishes the channel, unless it is finished. */
  finishOnce() {
    try {
      this.finish();
    } catch (error) {
      if (error.code !== Code.ChannelFinished) {
        throw error;
      }
    }
  }

  /** Rejects all waiting calls. */
  refuse(reason) {
    this.#line.refuse(reason);
    this.#mayGoOn();
  }

  /** Records that frames arrived, or the end of the peer's stream: guarantees may have arrived, or none may follow. */
  arrived() {
    this.#isStale = true;
  }

  /**
   * Whether the first call has its guarantees. A call that can never proceed is rejected, and the next one is
   * evaluated.
   */
  get isAble() {
    while (this.#isStale) {
      this.#isStale = false;
      this.#isAble = false;
      this.#lookAt(this.#line.call);
    }
    return this.#isAble;
  }

  /** The length of the first call's message. */
  get length() {
    return this.#line.call.length;
  }

  /** Completes the first call, which can proceed. */
  complete() {
    const { body, length, isPart } = this.#line.call;
    try {
      if (isPart) {
        this.#put(part(body, 0, length));
        this.#leave().resolve(length);
      } else {
        this.#put(body);
        this.#link.copies.free(body);
        this.#leave().resolve();
      }
    } catch (error) {
      this.#reject(error);
    }
  }

  /** Enqueues the pending control frames. Returns whether all of them found a slot. */
  flush() {
    this.#isStale = true;
    return this.#flushAbsolved() && this.#flushHonoured() && this.#line.flush(this.#steps);
  }

  // Behind the limit of 0 that ends a channel in version One a control frame may follow, and a message is refused by that
  // limit. Behind a Finish nothing follows.
  #mayGoOut() {
    this.#link.mayGoOut();
    if (this.#isFinished && this.#peer.version !== 1) {
      throw new LcmuxError(Code.ChannelFinished);
    }
  }

  // Returns what a message of this length lacks at most: 'guarantees', or 'slots'. Throws if it can never be sent.
  #lacks(length) {
    const { kind } = this.#peer.needs(this.channel, length);
    if (kind === 'never') {
      throw this.#never(length);
    }
    if (kind === 'guarantees') {
      this.#link.mayHear();
      return kind;
    }
    return this.#absolved > 0 && length > this.#free ? 'guarantees' : 'slots';
  }

  // The peer refuses no send for guarantees that a limit of the receiver rules out, so these are a code of their own.
  #never(length) {
    const refusal = this.#peer.wouldSend(this.channel, length);
    return refusal === null || refusal.code === Code.NoGuarantee ? new LcmuxError(Code.Never) : refusal;
  }

  // The guarantees that a message may use: held, within the limit on sending, and not to be absolved.
  get #free() {
    const { held, sendLeft } = this.#peer.client(this.channel);
    return Math.max(0, (sendLeft === null ? held : Number(least(BigInt(held), sendLeft))) - this.#absolved);
  }

  #put(bytes) {
    this.#peer.send(this.channel, bytes);
    const length = sizeOf(bytes);
    this.#link.sent(this, length);
    this.#stats.sent(length);
  }

  #lookAt(call) {
    if (call === null) {
      return;
    }
    try {
      const lack = this.#lacks(call.length);
      this.#stats.lacks(lack);
      this.#isAble = lack === 'slots';
    } catch (error) {
      this.#reject(error);
    }
  }

  // Rejects the first call. An error that does not belong to it ends the session, and with it all calls.
  #reject(error) {
    if (!isAnswer(error)) {
      throw error;
    }
    this.#leave().reject(error);
  }

  #leave() {
    const call = this.#line.shift();
    this.#mayGoOn();
    return call;
  }

  // The first entry of the wait queue changed.
  #mayGoOn() {
    this.#isStale = true;
    if (this.#line.call === null) {
      this.#stats.lacks(null);
      this.#link.owes(this);
    }
  }

  #flushAbsolved() {
    if (this.#absolved > 0) {
      if (!this.#link.hasSlot) {
        return false;
      }
      this.#link.enqueue(() => this.#peer.absolve(this.channel, this.#absolved));
      this.#absolved = 0;
    }
    return true;
  }

  // The plead is no longer pending, even if nothing is absolved.
  #flushHonoured() {
    const isDue = this.#honours || (this.#policy === AT_ONCE && !this.#link.isClosing);
    if (isDue) {
      if (!this.#link.hasSlot) {
        return false;
      }
      this.#link.enqueue(() => this.#peer.honour(this.channel));
      this.#honours = false;
    }
    return true;
  }

  // Messages before a limit may have used more of an earlier one.
  #steps = {
    hasSlot: () => this.#link.hasSlot,
    limit: bound => this.#link.enqueue(() => this.#peer.limitSending(this.channel, bound), Code.LimitRaised),
    finish: () => this.#link.enqueue(() => this.#peer.finish(this.channel)),
  };
}
