// The bytes of a ring buffer as a bar.

import { element, say } from './dom.js';
import { bytesIn, counted } from './words.js';

// The parts of a ring by their names in `standing`: their labels, and an explanation of their bytes.
const PARTS = [
  {
    name: 'held',
    title: 'held',
    worth: (n, from, to) =>
      `${counted(n, 'guarantee')} that ${from} holds. It may send a message of up to ${bytesIn(n)}; each byte spends one. ` +
      `For each, ${to} reserves a byte of its ring.`,
  },
  {
    name: 'wire',
    title: 'on the wire',
    worth: (n, from, to) =>
      `${bytesIn(n)} promised by ${to} and not held by ${from}: under way, in guarantees that have not arrived, ` +
      `in messages, or in guarantees given back or waived.`,
  },
  {
    name: 'buffered',
    title: 'buffered',
    worth: (n, from, to) => `${bytesIn(n)} of messages that have arrived at ${to} and wait to be taken.`,
  },
  {
    name: 'room',
    title: 'free',
    worth: (n, from, to) => `${bytesIn(n)} neither promised nor in use. ${to} may issue up to ${counted(n, 'guarantee')}.`,
  },
];

/** A bar of one direction, which explains a part that one points at or moves the focus to. */
export class RingBar {
  #parts;
  #sum = element('p', { className: 'sum' });
  #worth = element('p', { className: 'worth' });
  #told = 0;
  #ring = null;
  #sides;

  constructor(from, to, channel) {
    this.#sides = [from, to];
    this.#parts = PARTS.map(({ name }, at) => {
      const part = element('button', { type: 'button', className: name });
      const tell = () => this.#tell(at);
      part.addEventListener('pointerenter', tell);
      part.addEventListener('focus', tell);
      part.addEventListener('click', tell);
      return part;
    });
    const bar = element('div', { className: 'ring', role: 'group', 'aria-label': `The ring of ${to} for channel ${channel}` }, ...this.#parts);
    this.element = element('div', {}, bar, this.#sum, this.#worth);
  }

  #words(at) {
    const { name, worth } = PARTS[at];
    return worth(this.#ring[name], ...this.#sides);
  }

  #tell(at) {
    this.#told = at;
    if (this.#ring !== null) {
      say(this.#worth, this.#words(at));
    }
  }

  show(ring) {
    this.#ring = ring;
    PARTS.forEach(({ name, title }, at) => {
      const part = this.#parts[at];
      part.style.flexGrow = ring[name];
      part.hidden = ring[name] === 0;
      say(part, `${title} ${ring[name]}`);
      part.setAttribute('aria-label', this.#words(at));
    });
    const total = PARTS.reduce((sum, { name }) => sum + ring[name], 0);
    say(this.#sum, `${PARTS.map(({ name, title }) => `${title} ${ring[name]}`).join(' + ')} = ${total}`);
    const isThere = ({ name }) => ring[name] > 0;
    this.#tell(isThere(PARTS[this.#told]) ? this.#told : PARTS.findIndex(isThere));
  }
}
