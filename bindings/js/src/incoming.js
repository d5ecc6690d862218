import { Code, LcmuxError } from './codes.js';
import { List } from './list.js';
import { judge } from './outgoing.js';
import { ENDED, RING } from './peer.js';
import { AT_ONCE, BY_CALLER } from './policy.js';
import { Waits } from './waits.js';

/** The largest target of a plead. */
const MAX_U32 = 2 ** 32 - 1;

const isMessage = taken => taken instanceof Uint8Array;

/** A channel in the direction in which this side receives. */
export class Incoming {
  channel;
  /** The size of the channel's ring buffer. */
  capacity;
  #link;
  #peer;
  #policy;
  #stats;
  #calls = new Waits(() => {});
  // The target of the last plead: no policy issues above it.
  #most = null;
  // The pending control frames, in the order in which they are enqueued. A later issue is subtracted from a pending limit
  // and added to the target of a pending plead: the effect is that of the order of the calls.
  #issued = 0;
  #limited = null;
  #pleaded = null;
  // Whether a limit was enqueued.
  #isLimited = false;
  // Once the session is over: the messages that had arrived, and whether more would have followed.
  #left = new List();
  #hasEnded = false;

  constructor(link, peer, channel, policy, stats) {
    this.#link = link;
    this.#peer = peer;
    this.channel = channel;
    this.capacity = peer.server(channel).capacity;
    this.#policy = policy;
    this.#stats = stats;
  }

  /** Returns the next message, null if none will arrive, or a promise of it. */
  receive(signal) {
    if (this.#link.reason !== null) {
      return this.#afterwards();
    }
    const taken = this.#calls.first === undefined ? this.#take() : null;
    return taken === null ? this.#calls.join({}, signal) : this.#answer(taken);
  }

  /** Whether the peer sends nothing more: it finished the channel, or used up its limit on sending. */
  get isFinishedThere() {
    const { finished, sendLeft } = this.#peer.server(this.channel);
    return finished || sendLeft === 0n;
  }

  /** Records that frames arrived: waiting calls get the messages, and absolved bytes are free again. */
  arrived() {
    const { buffered, room } = this.#peer[RING](this.channel);
    this.#stats.buffered(buffered);
    if (room > 0) {
      this.#link.frees(this);
    }
    for (let taken; this.#calls.first !== undefined && (taken = this.#take()) !== null; ) {
      this.#calls.shift().resolve(this.#answer(taken));
    }
  }

  /** The bytes that may be issued beside the pending issue. */
  get room() {
    return this.#peer[RING](this.channel).room - this.#issued;
  }

  issue(amount) {
    this.#link.mayGoOut();
    if (this.#limited !== null && BigInt(amount) > this.#limited) {
      throw new LcmuxError(Code.PastReceiveLimit, this.#limited);
    }
    this.#judgeIssue(amount);
    this.#issued += amount;
    this.#limited &&= this.#limited - BigInt(amount);
    this.#pleaded = this.#pleaded === null ? null : Math.min(this.#pleaded + amount, MAX_U32);
    this.#link.owes(this);
  }

  limit(bound) {
    this.#link.mayGoOut();
    judge(this.#peer.wouldLimitReceiving(this.channel, bound));
    const left = this.#leftToIssue;
    if (left !== null && bound > left) {
      throw new LcmuxError(Code.LimitRaised, left);
    }
    this.#limited = bound;
    this.#link.owes(this);
  }

  plead(target) {
    this.#link.mayGoOut();
    judge(this.#peer.wouldPlead(this.channel, target));
    this.#pleaded = target;
    this.#most = target;
    this.#link.owes(this);
  }

  /** Sets the issue policy, and drops the target of earlier pleads. */
  setPolicy(policy) {
    this.#link.mayGoOut();
    this.#policy = policy;
    this.#most = null;
    this.#link.owes(this);
  }

  /** Enqueues the pending control frames, and the issue of the policy. Returns whether all of them found a slot. */
  flush() {
    return this.#flushIssued() && this.#flushLimited() && this.#flushPleaded() && this.#issueByPolicy();
  }

  /** Records that the session is over: the messages that arrived can still be received if `isKept`. */
  close(isKept) {
    let taken = null;
    while (isKept && isMessage((taken = this.#peer.take(this.channel)))) {
      this.#left.push(taken);
    }
    this.#hasEnded = taken === ENDED;
  }

  /** Resolves the calls that wait for a message. */
  release() {
    for (let wait; (wait = this.#calls.shift()) !== undefined; ) {
      try {
        wait.resolve(this.#afterwards());
      } catch (error) {
        wait.reject(error);
      }
    }
  }

  #take() {
    const taken = this.#peer.take(this.channel);
    if (isMessage(taken)) {
      this.#link.frees(this);
    }
    return taken;
  }

  #answer(taken) {
    if (!isMessage(taken)) {
      return null;
    }
    this.#stats.received(taken.length);
    return taken;
  }

  #afterwards() {
    const left = this.#left.shift();
    if (left === undefined && !this.#hasEnded) {
      throw this.#link.reason;
    }
    return this.#answer(left);
  }

  // The refusal of an issue that follows a pending one.
  #judgeIssue(amount) {
    const refusal = this.#peer.wouldIssue(this.channel, amount === 0 ? 0 : Math.min(amount + this.#issued, MAX_U32));
    switch (refusal?.code) {
      case Code.NoRoom:
        throw new LcmuxError(refusal.code, refusal.number - this.#issued);
      case Code.PastReceiveLimit:
        throw new LcmuxError(refusal.code, refusal.number - BigInt(this.#issued));
      default:
        judge(refusal ?? null);
    }
  }

  // What the limits allow once the pending issue is sent.
  get #leftToIssue() {
    const { receiveLeft } = this.#peer.server(this.channel);
    return this.#limited ?? (receiveLeft === null ? null : receiveLeft - BigInt(this.#issued));
  }

  #flushIssued() {
    if (this.#issued > 0) {
      if (!this.#link.hasSlot) {
        return false;
      }
      this.#link.enqueue(() => this.#peer.issue(this.channel, this.#issued));
      this.#issued = 0;
    }
    return true;
  }

  #flushLimited() {
    if (this.#limited !== null) {
      if (!this.#link.hasSlot) {
        return false;
      }
      this.#link.enqueue(() => this.#peer.limitReceiving(this.channel, this.#limited));
      this.#limited = null;
      this.#isLimited = true;
    }
    return true;
  }

  // The peer may have used the guarantees meanwhile.
  #flushPleaded() {
    if (this.#pleaded !== null) {
      if (!this.#link.hasSlot) {
        return false;
      }
      this.#link.enqueue(() => this.#peer.plead(this.channel, this.#pleaded), Code.NothingToAsk);
      this.#pleaded = null;
    }
    return true;
  }

  #issueByPolicy() {
    const amount = this.#due;
    if (amount > 0) {
      if (!this.#link.hasSlot) {
        return false;
      }
      this.#link.enqueue(() => this.#peer.issue(this.channel, amount), Code.TotalReached);
    }
    return true;
  }

  // As much of an amount as the limit leaves.
  #within(amount) {
    const { receiveLeft } = this.#peer.server(this.channel);
    return receiveLeft > BigInt(amount) ? amount : Number(receiveLeft);
  }

  get #due() {
    if (this.#policy === BY_CALLER || this.#link.isClosing) {
      return 0;
    }
    const { finished, outstanding, room } = this.#peer[RING](this.channel);
    if (finished || (this.#policy !== AT_ONCE && outstanding >= this.#policy.lowWater)) {
      return 0;
    }
    const amount = Math.min(room, Math.max(0, (this.#most ?? this.capacity) - outstanding));
    return amount > 0 && this.#isLimited ? this.#within(amount) : amount;
  }
}
