// The slots of the outbound queue: how many frames it may hold, and which calls may use them.
//
// Seven are reserved for control frames, one belongs to each channel, and the rest is shared by the messages of all
// channels. Of the messages of a channel in the queue, one holds the channel's own slot, and each further one a shared
// slot. No other channel takes a channel's own slot, so a message whose channel has none in the queue always finds one.
//
// The queue is first in, first out, so its frames are identified by numbers: the n-th frame that ever entered is still
// queued while fewer than n have left.
import { CHANNELS } from './channel.js';
import { List } from './list.js';

const CONTROL = CHANNELS.length;
const OWN = CHANNELS.length;

/** The least number of slots of a session. */
export const LEAST_SLOTS = CONTROL + OWN;

/** The most bytes of messages in the queue, if it holds more than one: a short message is written after all of them. */
const MOST_QUEUED = 65_536;

export class Slots {
  #total;
  // The number of frames in the queue, and of those that ever left it.
  #queued = 0;
  #left = 0;
  // By channel: how many of its messages are in the queue.
  #queuedOn = CHANNELS.map(() => 0);
  // The messages in the queue, by number, channel and length, and the sum of their bytes.
  #messages = new List();
  #bytes = 0;
  // The bytes that are not written, including the rest of a message that is written in part, or a lower bound of them.
  #unwritten = 0;

  constructor(total) {
    this.#total = total;
  }

  /** Updates the slots after control frames entered the queue. */
  follow(placesLeft) {
    this.#queued = this.#total - placesLeft;
  }

  /** Counts a message that entered the queue. */
  enter(channel, length) {
    this.#queued += 1;
    this.#queuedOn[channel] += 1;
    this.#messages.push({ number: this.#left + this.#queued, channel, length });
    this.#bytes += length;
    this.#unwritten += length;
  }

  /** Counts `count` bytes that were taken to be written. */
  leave(count, placesLeft) {
    const queued = this.#total - placesLeft;
    this.#left += this.#queued - queued;
    this.#queued = queued;
    for (let first; (first = this.#messages.first)?.number <= this.#left; ) {
      this.#queuedOn[first.channel] -= 1;
      this.#bytes -= first.length;
      this.#messages.shift();
    }
    this.#unwritten = Math.max(this.#bytes, this.#unwritten - count);
  }

  /** Returns whether a control frame may enter the queue. */
  get hasControl() {
    return this.#free > this.#kept;
  }

  /** Returns whether a message of the channel may enter the queue: into the channel's own slot, or a shared one. */
  hasFor(channel) {
    return this.#isOwnFree(channel) || this.#free > CONTROL + this.#kept;
  }

  /** Returns whether a message of this length fits. */
  hasBytes(length) {
    return this.#unwritten === 0 || this.#unwritten + length <= MOST_QUEUED;
  }

  get #free() {
    return this.#total - this.#queued;
  }

  #isOwnFree(channel) {
    return this.#queuedOn[channel] === 0;
  }

  // The free own slots, which only their channels may take.
  get #kept() {
    let kept = 0;
    for (const queued of this.#queuedOn) {
      kept += queued === 0 ? 1 : 0;
    }
    return kept;
  }
}
