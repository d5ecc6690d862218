// The script as a text, with the answer to each line beside it.

import { element, say, whenIdle } from './dom.js';
import { insertAtOnce } from './fields.js';
import { isEvent, linesOf } from './script.js';

const HEIGHT = 22;

// Only the answers in view have elements, and this many lines above and below them.
const MARGIN = 15;

// A browser lays out a text of more lines so slowly that it is written after the answer to a click is shown.
const LONG = 2000;

export class Editor {
  #text;
  #box;
  #list;
  #choose;
  #rows = new Map();
  #lines = [];
  #shown = { answers: [], seen: 0, bad: null, height: '' };
  #numbers = new Map();
  #reached = 1;
  #script = '';
  #written = '';
  #callOff = () => {};

  /** `changed` is called with a new text, `choose` with the number of the event whose answer was pressed. */
  constructor(text, list, changed, choose) {
    [this.#text, this.#box, this.#list, this.#choose] = [text, text.parentElement, list, choose];
    text.addEventListener('input', () => {
      this.#written = text.value;
      changed(text.value);
    });
    // The text is written before it can be edited.
    ['focus', 'beforeinput'].forEach(type => text.addEventListener(type, () => this.#script !== this.#written && this.#write()));
    insertAtOnce(text, changed);
    this.#box.addEventListener('scroll', () => this.#showRows());
    new ResizeObserver(() => this.#showRows()).observe(this.#box);
    list.addEventListener('click', event => this.#press(event.target.closest('li')));
    list.addEventListener('keydown', event => this.#move(event));
  }

  /**
   * Shows a script with its answers, of which the first `seen` events are visible. A line may be invalid: `bad` has its
   * number and the reason.
   */
  show(script, answers, seen, bad) {
    const lines = linesOf(script);
    this.#script = script;
    this.#shown = { answers, seen, bad, height: `${Math.max(lines.length + 2, 10) * HEIGHT}px` };
    this.#lines = lines.flatMap((line, at) => (isEvent(line) ? [at] : []));
    this.#numbers = new Map(this.#lines.map((line, at) => [line, at + 1]));
    this.#reached = Math.max(seen, 1);
    this.#callOff();
    if (script === this.#written || lines.length <= LONG) {
      this.#write();
    } else {
      this.#callOff = whenIdle(() => this.#write());
    }
  }

  #write() {
    this.#callOff();
    if (this.#script !== this.#written) {
      this.#text.value = this.#script;
      this.#written = this.#script;
    }
    this.#text.style.height = this.#shown.height;
    this.#list.style.height = this.#shown.height;
    if (document.activeElement !== this.#text) {
      this.#scrollTo(this.#reached);
    }
    this.#showRows();
  }

  // Scrolls the box, and not the page, until the answer to an event is in view.
  #scrollTo(number) {
    const top = (this.#lines[number - 1] ?? 0) * HEIGHT;
    const { scrollTop, clientHeight } = this.#box;
    if (top < scrollTop) {
      this.#box.scrollTop = top;
    } else if (top + HEIGHT > scrollTop + clientHeight) {
      this.#box.scrollTop = top + 2 * HEIGHT - clientHeight;
    }
  }

  // The lines with an answer that are in view, and the one that the keyboard reaches.
  #linesInView() {
    const { scrollTop, clientHeight } = this.#box;
    const first = Math.floor(scrollTop / HEIGHT) - MARGIN;
    const last = Math.ceil((scrollTop + clientHeight) / HEIGHT) + MARGIN;
    const reached = this.#lines[this.#reached - 1];
    const lines = [];
    for (let line = Math.max(first, 0); line <= last; line += 1) {
      if (this.#numbers.has(line)) {
        lines.push(line);
      }
    }
    return reached === undefined || lines.includes(reached) ? lines : [...lines, reached].sort((one, other) => one - other);
  }

  // An element stays with its line, so that the focus stays with its answer while the box scrolls.
  #showRows() {
    const lines = this.#linesInView();
    const kept = new Set(lines);
    for (const [line, row] of this.#rows) {
      if (!kept.has(line)) {
        row.remove();
        this.#rows.delete(line);
      }
    }
    let next = this.#list.firstElementChild;
    for (const line of lines) {
      const row = this.#rows.get(line) ?? newRow(line);
      this.#rows.set(line, row);
      if (row === next) {
        next = row.nextElementSibling;
      } else {
        this.#list.insertBefore(row, next);
      }
      this.#showRow(row, line);
    }
  }

  #showRow(row, line) {
    const number = this.#numbers.get(line);
    const { answers, seen, bad } = this.#shown;
    const button = row.firstElementChild;
    const isBad = bad !== null && line + 1 === bad.line;
    const answer = isBad ? bad.why : (answers[number - 1] ?? '');
    row.number = isBad ? null : number;
    const look = lookOf(number, answer, seen, isBad);
    if (row.className !== look) {
      row.className = look;
    }
    row.setAttribute('aria-setsize', this.#lines.length);
    row.setAttribute('aria-posinset', number);
    button.dataset.number = number;
    button.title = answer;
    button.tabIndex = number === this.#reached ? 0 : -1;
    button.setAttribute('aria-current', number === seen && !isBad ? 'step' : 'false');
    say(button, answer);
  }

  #press(row) {
    if (row !== null && row.number !== null) {
      this.#choose(row.number);
    }
  }

  // The arrow keys move between the answers, and Enter presses one as it does any button.
  #move(event) {
    const last = this.#lines.length;
    const number = { ArrowUp: this.#reached - 1, ArrowDown: this.#reached + 1, Home: 1, End: last }[event.key];
    if (number === undefined || last === 0) {
      return;
    }
    event.preventDefault();
    this.#reached = Math.min(Math.max(number, 1), last);
    this.#scrollTo(this.#reached);
    this.#showRows();
    this.#rows.get(this.#lines[this.#reached - 1]).firstElementChild.focus({ preventScroll: true });
  }
}

function newRow(line) {
  const row = element('li', {}, element('button', { type: 'button' }));
  row.style.top = `${line * HEIGHT}px`;
  return row;
}

function lookOf(number, answer, seen, isBad) {
  if (isBad) {
    return 'bad';
  }
  const isRefused = /^(refused|violation)/.test(answer);
  return ['event', ...(number === seen ? ['current'] : []), ...(number > seen ? ['later'] : []), ...(isRefused ? ['bad'] : [])].join(' ');
}
