// The channels: both directions of each, with the calls of either side.

import { element, say } from './dom.js';
import { judgeEdits, refuse, wholeOf } from './fields.js';
import { RingBar } from './rings.js';
import { U32, U64, bodyOf, otherSide, textOf } from './script.js';
import { CHANNELS, bytesIn, counted } from './words.js';

// Each call: its word in a script, the label of its button, and its argument.
const OF_SENDER = [
  ['send', 'Send', 'message'],
  ['honour', 'Honour the plead', null],
  ['absolve', 'Absolve', 1],
  ['limit-sending', 'Limit sending to', 0],
  ['finish', 'Finish', null],
];
const OF_RECEIVER = [
  ['issue', 'Issue', 5],
  ['take', 'Take', null],
  ['plead', 'Plead to hold', 0],
  ['limit-receiving', 'Limit issuing to', 0],
];

const MOST = { issue: U32, absolve: U32, plead: U32 };

/** The field beside a call's button, for a message or a number; null if the call has no argument. */
function fieldOf(side, channel, [act, title, takes]) {
  if (takes === null) {
    return null;
  }
  if (takes === 'message') {
    return element('input', { className: 'message', value: 'hi', 'aria-label': `Message of ${side} on channel ${channel}` });
  }
  const field = element('input', { type: 'number', min: 0, max: MOST[act] ?? U64, value: takes, required: true, 'aria-label': `${title}: bytes, ${side}, channel ${channel}` });
  judgeEdits(field);
  return field;
}

/** A button that appends a line, beside the field of the line's argument. */
function callRow(side, channel, call, append) {
  const [act, title] = call;
  const field = fieldOf(side, channel, call);
  const button = element('button', { type: 'button', 'aria-label': `${title}, ${side}, channel ${channel}` }, title);
  // The beginning of its line; the line, or null if the field has no valid number; and a function that fills the
  // field from a line.
  button.act = `${side} ${act} ${channel}`;
  button.line = () => {
    if (field === null) {
      return button.act;
    }
    const value = field.type === 'number' ? wholeOf(field) : bodyOf(field.value);
    return value === null ? null : `${button.act} ${value}`;
  };
  button.fillIn = line => {
    const value = line.split(' ').at(-1);
    if (field !== null) {
      field.value = field.type === 'number' ? value : textOf(value);
      refuse(field, null);
    }
  };
  button.addEventListener('click', () => {
    const line = button.line();
    if (line === null) {
      field.focus();
    } else {
      append(line);
    }
  });
  return element('div', { className: 'row' }, button, ...(field === null ? [] : [field]));
}

const bound = (text, words) => (text === '-' ? [] : [words(text)]);

/** The limits and the plead of a direction, a line for each. */
function factsOf(ring, from, to) {
  return [
    ...(ring.asked === '-' ? [] : [`${to} pleads that ${from} hold at most ${counted(ring.asked, 'guarantee')}. ${from} keeps the plead until it honours it.`]),
    ...bound(ring.maySend, left => `${from} has limited itself: it may send ${bytesIn(left)} more.`),
    ...bound(ring.mayIssue, left => `${to} has limited itself: it may issue ${counted(left, 'guarantee')} more.`),
    ...(ring.isFinished ? [`${from} has finished the channel.`] : []),
    ...(ring.isEnded && ring.buffered === 0 ? [`The channel has ended at ${to}: takes answer “ended”.`] : []),
  ];
}

class Direction {
  #bar;
  #facts = element('ul', { className: 'facts' });
  #from;
  #to;

  constructor(from, channel, append) {
    this.#from = from;
    this.#to = otherSide(from);
    this.#bar = new RingBar(from, this.#to, channel);
    const calls = (side, title, rows) => {
      const buttons = element('div', { className: 'calls' }, ...rows.map(row => callRow(side, channel, row, append)));
      return element('div', { role: 'group', 'aria-label': `${side}, channel ${channel}` }, element('h4', {}, title), buttons);
    };
    this.element = element(
      'section',
      { className: `direction c${channel} from-${from}`, 'aria-label': `From ${from} to ${this.#to} on channel ${channel}` },
      element('h4', {}, `From ${from} to ${this.#to}: the ring of ${this.#to}`),
      this.#bar.element,
      this.#facts,
      element('div', { className: 'sides' }, calls(from, `${from} sends`, OF_SENDER), calls(this.#to, `${this.#to} receives`, OF_RECEIVER)),
    );
  }

  show(ring) {
    this.#bar.show(ring);
    const facts = factsOf(ring, this.#from, this.#to);
    if (facts.join('\n') !== Array.from(this.#facts.children, it => it.textContent).join('\n')) {
      this.#facts.replaceChildren(...facts.map(fact => element('li', {}, fact)));
    }
  }
}

const summaryOf = ({ held, wire, buffered, room }, from, to) => (held + wire + buffered === 0 ? '' : `${from} to ${to}: held ${held}, wire ${wire}, buffered ${buffered}, free ${room}`);

/** The seven channels, one of which is open. */
export class Channels {
  #open = 1;
  #rows;
  #standing = null;

  constructor(at, append) {
    this.#rows = CHANNELS.map((name, channel) => {
      const summary = element('span', { className: 'summary' });
      const disc = element('span', { className: 'disc', 'aria-hidden': 'true' }, String(channel));
      const head = element('button', { type: 'button', 'aria-controls': `channel-${channel}` }, disc, element('span', {}, `${channel} ${name}`), summary);
      const body = element('div', { className: 'directions', id: `channel-${channel}` });
      head.addEventListener('click', () => this.open(this.#open === channel ? null : channel));
      at.append(element('div', { className: `channel c${channel}` }, element('h3', {}, head), body));
      return { channel, head, summary, body, directions: null, append };
    });
  }

  /** Opens a channel and closes the others. */
  open(channel) {
    this.#open = channel;
    this.#showAll();
  }

  show(standing) {
    this.#standing = standing;
    this.#showAll();
  }

  #showAll() {
    this.#rows.forEach(row => this.#showRow(row));
  }

  #showRow(row) {
    const { channel, head, summary, body, append } = row;
    const isOpen = channel === this.#open;
    head.setAttribute('aria-expanded', String(isOpen));
    body.hidden = !isOpen;
    if (isOpen && row.directions === null) {
      row.directions = { A: new Direction('A', channel, append), B: new Direction('B', channel, append) };
      body.append(row.directions.A.element, row.directions.B.element);
    }
    if (this.#standing !== null) {
      const [fromA, fromB] = ['A', 'B'].map(side => this.#standing.rings[side + channel]);
      say(summary, [summaryOf(fromA, 'A', 'B'), summaryOf(fromB, 'B', 'A')].filter(text => text !== '').join('; '));
      if (isOpen) {
        row.directions.A.show(fromA);
        row.directions.B.show(fromB);
      }
    }
  }
}
