// The page's address, which contains the session.

// Safari allows a hundred changes of the address in thirty seconds, and Chromium two hundred in ten. Chromium ignores
// further ones without an error, so the last change would be lost.
const SPAN = 30000;
const AT_ONCE = 60;
const PAUSE = 1000;

export class Address {
  #hash = '';
  #times = [];
  #timer = null;

  /** Changes the part after the path, at once or within a second. */
  write(hash) {
    this.#hash = hash;
    const now = performance.now();
    this.#times = this.#times.filter(time => now - time < SPAN);
    if (this.#times.length < AT_ONCE) {
      this.#change();
    } else {
      this.#timer ??= setTimeout(() => this.#change(), PAUSE);
    }
  }

  #change() {
    clearTimeout(this.#timer);
    this.#timer = null;
    this.#times.push(performance.now());
    try {
      history.replaceState(null, '', this.#hash);
    } catch {
      // A page that may not change its address keeps its own; the link has the new one.
    }
  }
}
