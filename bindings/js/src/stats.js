/** The statistics of a channel, in both directions. */
export class Stats {
  #counted = { messagesSent: 0, bytesSent: 0, messagesReceived: 0, bytesReceived: 0, mostBuffered: 0 };
  #waited = { guarantees: 0, slots: 0 };
  // What the first waiting call lacks, null if none waits, and since when.
  #lack = null;
  #since = 0;

  sent(length) {
    this.#counted.messagesSent += 1;
    this.#counted.bytesSent += length;
  }

  received(length) {
    this.#counted.messagesReceived += 1;
    this.#counted.bytesReceived += length;
  }

  buffered(length) {
    this.#counted.mostBuffered = Math.max(this.#counted.mostBuffered, length);
  }

  /** Records what the first waiting call lacks from now on: 'guarantees', 'slots', or null if none waits. */
  lacks(lack) {
    if (lack === this.#lack) {
      return;
    }
    const now = performance.now();
    if (this.#lack !== null) {
      this.#waited[this.#lack] += now - this.#since;
    }
    this.#lack = lack;
    this.#since = now;
  }

  /** Returns the statistics up to now, including the time of a call that still waits. */
  get() {
    const waited = { ...this.#waited };
    if (this.#lack !== null) {
      waited[this.#lack] += performance.now() - this.#since;
    }
    return { ...this.#counted, waitedForGuarantees: waited.guarantees, waitedForSlots: waited.slots };
  }
}
