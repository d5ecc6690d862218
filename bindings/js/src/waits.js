import { List } from './list.js';

/** Settles as a promise does, or rejects with the reason of the signal once that aborts. */
export function unlessAborted(promise, signal) {
  if (signal === undefined) {
    return promise;
  }
  return new Promise((resolve, reject) => {
    const leave = () => reject(signal.reason);
    signal.addEventListener('abort', leave, { once: true });
    promise.then(resolve, reject).finally(() => signal.removeEventListener('abort', leave));
  });
}

/** A queue of waiting promises. A promise whose signal aborts leaves it, from any position. */
export class Waits {
  #places = new List();
  // The waits and the one listener of each signal: a signal compares each new listener with all that it has.
  #watched = new Map();
  #left;

  /** `left` is called once waits were cancelled by their signal. */
  constructor(left) {
    this.#left = left;
  }

  /** The first entry, undefined if there is none. */
  get first() {
    return this.#places.first;
  }

  /** Appends an entry that is no promise. */
  push(place) {
    this.#places.push(place);
  }

  // Appends a promise. Once it was shifted, its `resolve` or `reject` settles it.
  join(wait, signal) {
    return new Promise((resolve, reject) => {
      Object.assign(wait, { resolve, reject, signal });
      if (signal !== undefined) {
        this.#watch(signal).waits.add(wait);
      }
      wait.node = this.#places.push(wait);
    });
  }

  shift() {
    const place = this.#places.shift();
    if (place?.signal !== undefined) {
      this.#forget(place);
    }
    return place;
  }

  #watch(signal) {
    let watched = this.#watched.get(signal);
    if (watched === undefined) {
      watched = { waits: new Set(), leave: () => this.#leave(signal) };
      signal.addEventListener('abort', watched.leave, { once: true });
      this.#watched.set(signal, watched);
    }
    return watched;
  }

  #forget(wait) {
    const { waits, leave } = this.#watched.get(wait.signal);
    waits.delete(wait);
    if (waits.size === 0) {
      this.#watched.delete(wait.signal);
      wait.signal.removeEventListener('abort', leave);
    }
  }

  #leave(signal) {
    const { waits } = this.#watched.get(signal);
    this.#watched.delete(signal);
    for (const wait of waits) {
      this.#places.remove(wait.node);
      wait.reject(signal.reason);
    }
    this.#left();
  }
}
