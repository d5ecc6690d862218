/** A list, first in, first out. Each operation takes constant time. */
export class List {
  // A sentinel before the first node and after the last one.
  #ends = {};

  constructor() {
    this.#ends.next = this.#ends.previous = this.#ends;
  }

  /** The first value, undefined if there is none. */
  get first() {
    return this.#ends.next.value;
  }

  /** Appends a value and returns its node. */
  push(value) {
    const node = { value, previous: this.#ends.previous, next: this.#ends };
    node.previous.next = node.next.previous = node;
    return node;
  }

  /** Removes the first value and returns it, undefined if there is none. */
  shift() {
    const node = this.#ends.next;
    if (node !== this.#ends) {
      this.remove(node);
    }
    return node.value;
  }

  /** Removes a node, anywhere in the list. */
  remove(node) {
    node.previous.next = node.next;
    node.next.previous = node.previous;
    // A removed node would otherwise keep the nodes after it alive.
    node.previous = node.next = null;
  }
}
