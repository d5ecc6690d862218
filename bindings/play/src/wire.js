// The two streams, with their frames in flight, as the library reports them.

import { element, fill, passFocus, say } from './dom.js';
import { otherSide } from './script.js';
import { bytesIn, counted, frameInWords } from './words.js';

const SHOWN = 40;

class Lane {
  #from;
  #to;
  #title = element('p', { tabIndex: -1 });
  #chips = element('ol', { className: 'chips' });
  #more = element('p', { className: 'soft' });
  #all;
  #buttons;
  #bytes = 0;

  constructor(from, append) {
    [this.#from, this.#to] = [from, otherSide(from)];
    const to = this.#to;
    const button = (title, line) => {
      const made = element('button', { type: 'button' }, title);
      made.addEventListener('click', () => {
        append(line());
        passFocus(made, this.#title);
      });
      made.line = line;
      made.act = line();
      return made;
    };
    this.#all = button('Deliver all', () => `${to} deliver ${this.#bytes}`);
    this.#buttons = [button(`Deliver a frame to ${to}`, () => `${to} arrive`), button('Deliver a byte', () => `${to} deliver 1`), this.#all];
    this.#chips.setAttribute('aria-label', `Frames on their way from ${from} to ${to}`);
    this.element = element('div', { className: 'lane' }, this.#title, this.#chips, this.#more, element('div', { className: 'row', role: 'group', 'aria-label': `To ${to}` }, ...this.#buttons));
  }

  show({ version, bytes, delivered, frames }) {
    this.#bytes = bytes - delivered;
    const words = `${this.#from} to ${this.#to}, version ${version === 2 ? 'Two' : 'One'}: ${bytesIn(bytes)} sent, ${delivered} arrived.`;
    say(this.#title, frames.length === 0 ? `${words} Nothing is on the wire.` : words);
    fill(this.#chips, Math.min(frames.length, SHOWN), () => element('li', { className: 'chip' }), (chip, at) => this.#showChip(chip, frames[at], delivered));
    say(this.#more, frames.length > SHOWN ? `and ${counted(frames.length - SHOWN, 'more frame')}` : '');
    say(this.#all, `Deliver all (${bytesIn(this.#bytes)})`);
    this.#buttons.forEach(it => (it.disabled = this.#bytes === 0));
  }

  #showChip(chip, { offset, end, line }, delivered) {
    const { channel, words } = frameInWords(line);
    const part = delivered > offset ? `, ${delivered - offset} arrived` : '';
    const text = `${words} · ${bytesIn(end - offset)}${part}`;
    chip.className = channel === null ? 'chip plain' : `chip c${channel}`;
    const disc = channel === null ? [] : [element('span', { className: 'disc', 'aria-label': `channel ${channel}`, role: 'img' }, String(channel)), ' '];
    chip.replaceChildren(...disc, text);
    const places = end - offset === 1 ? `byte ${offset}` : `bytes ${offset} to ${end - 1}`;
    chip.title = `${places} of the stream of ${this.#from}`;
  }
}

export class Wire {
  #lanes;

  constructor(at, append) {
    this.#lanes = { A: new Lane('A', append), B: new Lane('B', append) };
    at.append(this.#lanes.A.element, this.#lanes.B.element);
  }

  show({ streams }) {
    this.#lanes.A.show(streams.A);
    this.#lanes.B.show(streams.B);
  }
}
