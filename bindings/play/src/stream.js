// The view of a stream's bytes: its frames and its fault, with their offsets.

import { byId, element, passFocus, say } from './dom.js';
import { insertAtOnce, refuse } from './fields.js';
import { readHex } from './hex.js';
import { placeOf } from './library.js';
import { Picture } from './picture.js';
import { hexOf, linesOf } from './script.js';
import { bytesIn, counted, frameInWords, grouped } from './words.js';

const EXAMPLES = [
  ['', 'choose one'],
  ['21 00 00 00 05 11 00 02 68 69', 'an issue and a message, version One'],
  ['4c 43 4d 02 11 00 00 00 02 68 69 71', 'a message and a finish, version Two'],
  ['21 00 00 00 05 11 00 00', 'a message of no bytes'],
  ['21 00 00 00 05 99', 'a byte that is no tag'],
  ['21 00 00 00 05 11 00 02 68', 'a stream that is cut off'],
];

const ROWS = 500;
const DRAWN_AT_ONCE_FRAMES = 300;
const HEX_SHOWN = 4096;

// A browser takes seconds to lay out a megabyte of digits, so longer texts are read and not kept in their field.
const HEX_KEPT = 65536;
const MAX_BYTES = 16777216;

/** Parses the number and the offset of a fault from its line, and what is at fault; null for another line. */
export function faultOf(told) {
  const found = /F(\d) in the frame at byte (\d+)(?:: (.+))?/.exec(told);
  return found && { number: Number(found[1]), offset: Number(found[2]), culprit: found[3] };
}

async function bytesOfFile(file) {
  if (file.size > MAX_BYTES) {
    return { why: `${file.name} has ${bytesIn(file.size)}, and at most ${bytesIn(MAX_BYTES)} are read.` };
  }
  try {
    return { bytes: new Uint8Array(await file.arrayBuffer()) };
  } catch {
    return { why: `${file.name} cannot be read. A folder has no bytes.` };
  }
}

export class StreamView {
  #library;
  #bytes = new Uint8Array(0);
  // The lines of the frames. A megabyte has many, so only those that are shown are parsed.
  #lines = [];
  #fault = null;
  #rows = 0;
  #picture;
  // The number of the last text or file: a file is read while others may be given.
  #given = 0;

  constructor(library) {
    this.#library = library;
    this.#picture = new Picture(byId('stream-picture'), byId('stream-picture-words'));
    byId('stream-example').append(...EXAMPLES.map(([value, title]) => element('option', { value }, title)));
    byId('hex').addEventListener('input', () => this.#read(byId('hex').value));
    insertAtOnce(byId('hex'), text => this.#read(text));
    byId('stream-example').addEventListener('change', () => this.#showExample());
    byId('file').addEventListener('change', () => this.#take(byId('file').files[0]));
    byId('more').addEventListener('click', () => {
      this.#showRows(this.#rows + ROWS);
      passFocus(byId('more'), byId('frames').closest('[tabindex]'));
    });
    this.#listenToDrops();
  }

  #listenToDrops() {
    const drop = byId('view-stream');
    const mark = isOver => byId('drop').classList.toggle('over', isOver);
    // A text that is dropped into the field is left to the browser.
    const onFiles = (type, act) =>
      drop.addEventListener(type, event => {
        if (event.dataTransfer.types.includes('Files')) {
          event.preventDefault();
          act(event);
        }
      });
    onFiles('dragover', () => mark(true));
    drop.addEventListener('dragleave', () => mark(false));
    onFiles('drop', event => {
      mark(false);
      this.#take(event.dataTransfer.files[0]);
    });
  }

  #showExample() {
    byId('hex').value = byId('stream-example').value;
    byId('stream-example').value = '';
    this.#read(byId('hex').value);
  }

  #read(text) {
    this.#given += 1;
    const { bytes, why } = readHex(text);
    const isLong = text.length > HEX_KEPT;
    if (isLong || text !== byId('hex').value) {
      byId('hex').value = isLong ? '' : text;
    }
    refuse(byId('hex'), why === undefined ? null : `${why}${isLong ? ' The text is too long to be shown here.' : ''}`);
    refuse(byId('file'), null);
    if (bytes === undefined) {
      this.#clear();
    } else {
      this.show(bytes, isLong ? 'The digits are too many to be shown here: ' : '');
    }
  }

  async #take(file) {
    if (file === undefined) {
      return;
    }
    this.#given += 1;
    const given = this.#given;
    const { bytes, why } = await bytesOfFile(file);
    if (given !== this.#given) {
      return;
    }
    refuse(byId('file'), why ?? null);
    if (bytes === undefined) {
      this.#clear();
      return;
    }
    refuse(byId('hex'), null);
    byId('hex').value = bytes.length <= HEX_SHOWN ? hexOf(bytes) : '';
    this.show(bytes, `${file.name}: `);
  }

  #clear() {
    say(byId('stream-said'), '');
    byId('stream-found').hidden = true;
    byId('stream-drawn').hidden = true;
    this.#picture.clear();
  }

  /** Shows the frames of these bytes. */
  show(bytes, name) {
    const { shown, told } = this.#library.places(bytes);
    this.#bytes = bytes;
    this.#lines = linesOf(shown);
    this.#fault = faultOf(told);
    if (bytes.length === 0) {
      this.#clear();
      return;
    }
    say(byId('stream-said'), `${name}${bytesIn(bytes.length)}, ${counted(this.#lines.length, 'whole frame')}${this.#faultInWords(told)}`);
    byId('stream-found').hidden = false;
    byId('frames').replaceChildren();
    this.#rows = 0;
    this.#showRows(ROWS);
    this.#draw();
  }

  #faultInWords(told) {
    if (told === '') {
      return ', and no fault.';
    }
    if (this.#fault === null) {
      return `. ${told.trim()}`;
    }
    return `, and then the fault F${this.#fault.number} in the frame at byte ${this.#fault.offset}: ${this.#wrong()}.`;
  }

  /** The sentence of the fault, and what is at fault. */
  #wrong() {
    const { number, culprit } = this.#fault;
    const sentence = this.#library.sentence(200 + number);
    return culprit === undefined ? sentence : `${sentence} (${culprit})`;
  }

  #showRows(count) {
    const rows = this.#lines.slice(this.#rows, count).map((line, at) => this.#rowOf(this.#rows + at + 1, placeOf(line)));
    byId('frames').append(...rows);
    this.#rows = Math.min(count, this.#lines.length);
    const left = this.#lines.length - this.#rows;
    if (left === 0 && this.#fault !== null) {
      byId('frames').append(this.#faultRow());
    }
    byId('more').hidden = left === 0;
    say(byId('more'), `Show ${counted(Math.min(left, ROWS), 'more frame')} (${grouped(left)} left)`);
  }

  // A row of the table: its first cells, the bytes between two offsets, and their meaning.
  #row(className, texts, [offset, end], said) {
    const bytes = element('td', { className: 'bytes' }, this.#hexFrom(offset, end));
    return element('tr', { className }, ...texts.map(text => element('td', {}, text)), bytes, said);
  }

  #rowOf(number, { offset, end, line }) {
    const { channel, words } = frameInWords(line);
    const disc = element('span', { className: 'disc', role: 'img', 'aria-label': `channel ${channel}` }, String(channel));
    return this.#row('', [number, offset, end].map(String), [offset, end], element('td', { className: `c${channel}` }, disc, ` ${words}`));
  }

  #faultRow() {
    const { number, offset } = this.#fault;
    const said = `F${number}: ${this.#wrong()}`;
    return this.#row('fault', ['fault', String(offset), ''], [offset, this.#bytes.length], element('td', {}, said));
  }

  #hexFrom(offset, end) {
    const shown = Array.from(this.#bytes.subarray(offset, Math.min(end, offset + 16)), byte => hexOf([byte]));
    return shown.join(' ') + (end - offset > 16 ? ' …' : '');
  }

  #draw() {
    const isShort = this.#lines.length <= DRAWN_AT_ONCE_FRAMES;
    byId('stream-drawn').hidden = !isShort;
    if (isShort) {
      this.#picture.show(this.#library.stream(this.#bytes).shown);
    } else {
      this.#picture.clear();
    }
  }
}
