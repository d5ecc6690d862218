import { Code, LcmuxError } from './codes.js';
import { Waits } from './waits.js';

/** The entry of a finish. */
const FINISH = Object.freeze({});

const isCall = place => place?.resolve !== undefined;

/** The wait queue of a sender: the waiting calls, and the limits and the finish behind them, in their order. */
export class Line {
  #places;
  // The last limit in the queue, which allows the least, and whether it is the last entry.
  #limit = null;
  #isLimitLast = false;

  /** `left` is called once calls were cancelled by their signal. */
  constructor(left) {
    this.#places = new Waits(left);
  }

  get isEmpty() {
    return this.#places.first === undefined;
  }

  /** The first call, null if a limit or a finish precedes it, or if there is none. */
  get call() {
    const { first } = this.#places;
    return isCall(first) ? first : null;
  }

  /** What the last limit in the queue allows, null if there is none. */
  get left() {
    return this.#limit?.bound ?? null;
  }

  /** Throws if the limits in the queue do not allow a message of this length. */
  judge(length) {
    if (this.#limit !== null && BigInt(length) > this.#limit.bound) {
      throw new LcmuxError(Code.PastSendLimit, this.#limit.bound);
    }
  }

  join(call, signal) {
    this.#isLimitLast = false;
    return this.#places.join(call, signal);
  }

  /** Appends a limit. It replaces a limit that is the last entry. */
  limit(bound) {
    if (this.#limit !== null && this.#isLimitLast) {
      this.#limit.bound = bound;
      return;
    }
    this.#limit = { bound };
    this.#isLimitLast = true;
    this.#places.push(this.#limit);
  }

  finish() {
    this.#isLimitLast = false;
    this.#places.push(FINISH);
  }

  /** Removes the first call. */
  shift() {
    return this.#places.shift();
  }

  /**
   * Enqueues the entries before the first call, limits by `limit` and a finish by `finish`, while there are slots.
   * Returns whether all of them found a slot.
   */
  flush({ hasSlot, limit, finish }) {
    for (let place; (place = this.#places.first) !== undefined && !isCall(place); ) {
      if (!hasSlot()) {
        return false;
      }
      this.#places.shift();
      if (place === FINISH) {
        finish();
      } else {
        this.#limit = place === this.#limit ? null : this.#limit;
        limit(place.bound);
      }
    }
    return true;
  }

  /** Rejects all calls. Limits and a finish stay. */
  refuse(reason) {
    const kept = [];
    for (let place; (place = this.#places.shift()) !== undefined; ) {
      if (isCall(place)) {
        place.reject(reason);
      } else {
        kept.push(place);
      }
    }
    kept.forEach(place => this.#places.push(place));
  }
}
