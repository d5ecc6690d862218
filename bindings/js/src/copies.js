import { copyOf, copyTo, part, sizeOf, wholeOf } from './bytes.js';

/** The shortest body whose copy gets a buffer of its own that is used again, and the longest. */
const LEAST = 4_096;
const MOST = 65_536;

const NONE = new Uint8Array(0);

const isLong = bytes => sizeOf(bytes) >= LEAST && sizeOf(bytes) <= MOST;

/**
 * Makes the copies of the bodies of waiting sends. The buffer of the last long one is kept for the next, since a fresh
 * buffer costs several times as much as the copy.
 */
export class Copies {
  #spare = NONE;

  of(bytes) {
    if (!isLong(bytes)) {
      return copyOf(bytes);
    }
    const size = sizeOf(bytes);
    const buffer = size <= sizeOf(this.#spare) ? this.#spare : new Uint8Array(size);
    this.#spare = NONE;
    copyTo(buffer, 0, bytes);
    return part(buffer, 0, size);
  }

  /** Takes back a copy that is no longer used. */
  free(copy) {
    if (!isLong(copy)) {
      return;
    }
    const buffer = wholeOf(copy);
    if (sizeOf(buffer) > sizeOf(this.#spare)) {
      this.#spare = buffer;
    }
  }
}
