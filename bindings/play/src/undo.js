// The earlier sessions, to which one can return.

// A script is kept whole at each step, so long ones are bounded by their length.
const MOST_STEPS = 500;
const MOST_LETTERS = 1 << 23;

export class Undo {
  #sessions = [];
  #letters = 0;

  get isEmpty() {
    return this.#sessions.length === 0;
  }

  /** Keeps a session, and forgets the oldest ones beyond the bounds. */
  push(session) {
    this.#sessions.push(session);
    this.#letters += session.script.length;
    while (this.#sessions.length > MOST_STEPS || (this.#letters > MOST_LETTERS && this.#sessions.length > 1)) {
      this.#letters -= this.#sessions.shift().script.length;
    }
  }

  /** Returns the latest session and forgets it. */
  pop() {
    const session = this.#sessions.pop();
    this.#letters -= session.script.length;
    return session;
  }
}
