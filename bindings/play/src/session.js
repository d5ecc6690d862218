// The view of a session. Its state is a script, with the size of the rings, the version, and the number of visible
// events.

import { Address } from './address.js';
import { Channels } from './channels.js';
import { byId, element, passFocus, say, sayIf, whenIdle } from './dom.js';
import { Editor } from './editor.js';
import { refuse, whyNoWhole, wholeOf } from './fields.js';
import { Guide } from './guide.js';
import { standingOf } from './library.js';
import { whyBad } from './lines.js';
import { Picture } from './picture.js';
import { EMPTY, continuedBy, eventsOf, isEvent, linesOf, linkOf, ofLink, prefixOf } from './script.js';
import { TOUR, TOUR_SESSION, stepBack, tourPlace, tourScript } from './tour.js';
import { Undo } from './undo.js';
import { Wire } from './wire.js';
import { allowing, counted, sentenceOf } from './words.js';

// A picture of more events is so slow in a browser that it is drawn only on request.
const DRAWN_AT_ONCE = 150;

// Changes that are typed within this many milliseconds are undone together.
const TYPING = 1000;

// Chromium's longest address has 2 MiB, and Firefox's 1 MiB.
const LONGEST_LINK = 1000000;

export class SessionView {
  #library;
  #examples;
  #state = EMPTY;
  #seen = 0;
  #undone = new Undo();
  #typed = 0;
  #replayed = null;
  #allowed = null;
  #channels;
  #wire;
  #editor;
  #picture;
  #guide;
  #address = new Address();
  #callOff = () => {};

  constructor(library, examples) {
    this.#library = library;
    this.#examples = examples;
    const append = line => this.append([line]);
    this.#channels = new Channels(byId('channels'), append);
    this.#wire = new Wire(byId('wire'), append);
    this.#editor = new Editor(byId('script'), byId('answers'), script => this.#type(script), event => this.see(event));
    this.#picture = new Picture(byId('picture'), byId('picture-words'));
    this.#guide = new Guide(channel => this.#channels.open(channel));
    byId('example').append(element('option', { value: '' }, 'choose one'), ...examples.map(({ name, title }) => element('option', { value: name }, title)));
    this.#listen();
    byId('fit').checked = this.#picture.fits;
    const given = ofLink(location.hash);
    this.#guide.isOn = given?.place.isOnTour ?? true;
    this.#become(given?.session ?? EMPTY, given?.place.seen);
  }

  #listen() {
    const on = (id, type, act) => byId(id).addEventListener(type, act);
    on('back', 'click', () => this.#step(-1, 'back', 'forward'));
    on('forward', 'click', () => this.#step(1, 'forward', 'back'));
    on('at', 'input', () => this.see(Number(byId('at').value)));
    on('undo', 'click', () => this.#undo());
    on('clear', 'click', () => this.change({ ...this.#state, script: '' }));
    on('capacity', 'change', () => this.#chooseCapacity());
    on('version', 'change', () => this.change({ ...this.#state, version: Number(byId('version').value) }));
    on('example', 'change', () => this.#showExample());
    on('copy', 'click', () => this.#copy());
    on('allow', 'click', () => {
      this.change(this.#allowed);
      passFocus(byId('allow'), byId('back'));
    });
    on('fit', 'change', () => (this.#picture.fits = byId('fit').checked));
    on('draw', 'click', () => this.#draw());
    on('tour-do', 'click', () => this.#doTour());
    on('tour-back', 'click', () => this.#backOnTour());
    on('tour-end', 'click', () => this.#leaveTour());
    on('tour-start', 'click', () => this.#startTour());
    addEventListener('hashchange', () => this.#follow());
  }

  // ---- changes of the state

  /** Shows another session, after this many of its events or at its end. */
  change(state, seen) {
    this.#undone.push(this.#state);
    this.#typed = 0;
    this.#become(state, seen);
  }

  /** Inserts lines after the visible events; they replace the rest. */
  append(lines) {
    this.change({ ...this.#state, script: continuedBy(this.#state.script, this.#seen, lines) });
  }

  /** Shows this many events. */
  see(count) {
    this.#seen = Math.min(Math.max(count, 0), this.#replayed.last);
    this.#show();
  }

  // Shows one event more or less, by one of two buttons.
  #step(by, pressed, other) {
    this.see(this.#seen + by);
    passFocus(byId(pressed), byId(other));
  }

  #become(state, seen = null) {
    this.#state = state;
    this.#replayed = this.#replay(state);
    this.see(seen ?? this.#replayed.last);
  }

  #type(script) {
    const now = Date.now();
    if (now - this.#typed > TYPING) {
      this.#undone.push(this.#state);
    }
    this.#typed = now;
    this.#become({ ...this.#state, script });
  }

  #undo() {
    if (!this.#undone.isEmpty) {
      this.#typed = 0;
      this.#become(this.#undone.pop());
      passFocus(byId('undo'), byId('clear'));
    }
  }

  #chooseCapacity() {
    const digits = wholeOf(byId('capacity'));
    if (digits === null) {
      byId('capacity').focus();
    } else {
      this.change({ ...this.#state, capacity: Number(digits) });
    }
  }

  #showExample() {
    const example = this.#examples.find(({ name }) => name === byId('example').value);
    byId('example').value = '';
    if (example !== undefined) {
      this.#guide.isOn = false;
      this.change({ capacity: example.capacity, version: example.version, script: example.script });
    }
  }

  // The address was changed by hand, or a link was followed. One without a session, such as that past the header, would
  // leave none for a reload.
  #follow() {
    const given = ofLink(location.hash);
    if (given === null) {
      this.#showLink();
    } else if (linkOf(given.session, given.place) !== this.#link()) {
      this.#guide.isOn = given.place.isOnTour;
      this.change(given.session, given.place.seen);
    }
  }

  async #copy() {
    try {
      await navigator.clipboard.writeText(byId('link').href);
      say(byId('copied'), 'copied');
    } catch {
      say(byId('copied'), 'the browser does not let this page copy: copy the link beside');
    }
  }

  // ---- the tour

  #leaveTour() {
    this.#guide.isOn = false;
    this.#show();
    passFocus(byId('tour-end'), byId('tour-start'));
  }

  #startTour() {
    this.#guide.isOn = true;
    this.change({ ...TOUR_SESSION, script: '' });
    passFocus(byId('tour-start'), byId('tour-do'));
  }

  #doTour() {
    const place = tourPlace(this.#now());
    if (place === null || place.step === TOUR.length) {
      this.#startTour();
    } else {
      this.append(place.left);
    }
  }

  #backOnTour() {
    this.change({ ...TOUR_SESSION, script: tourScript(stepBack(this.#now())) });
    passFocus(byId('tour-back'), byId('tour-do'));
  }

  // ---- the display

  // Replays a session: its events and their answers, how many of them can be visible, and its fault. A fault in a line
  // comes with the answers of the lines before it.
  #replay(state) {
    const events = eventsOf(state.script);
    const { status, shown, told } = this.#library.replay(state);
    if (status === 0) {
      return { events, answers: linesOf(shown), last: events.length, fault: null, bad: null };
    }
    const number = Number(/line (\d+): bad script line/.exec(told)?.[1] ?? 0);
    if (number === 0) {
      return { events, answers: [], last: events.length, fault: faultInWords(told), bad: null };
    }
    const lines = linesOf(state.script);
    const last = lines.slice(0, number - 1).filter(isEvent).length;
    const before = this.#library.replay({ ...state, script: prefixOf(state.script, last) });
    const why = whyBad(lines[number - 1]) ?? 'it is no event';
    return { events, answers: linesOf(before.shown), last, fault: `Line ${number} of the script: ${why}.`, bad: { line: number, why } };
  }

  // The visible part of the session.
  #now() {
    return { ...this.#state, script: prefixOf(this.#state.script, this.#seen) };
  }

  #show() {
    const { answers, fault, bad } = this.#replayed;
    sayIf(byId('fault'), fault);
    refuse(byId('script'), bad === null ? null : fault);
    this.#showChoices();
    if (fault === null || bad !== null) {
      const standing = standingOf(this.#library.standing(this.#now()).shown);
      this.#channels.show(standing);
      this.#wire.show(standing);
    }
    this.#showPlace();
    this.#showLink();
    // These two ask for places on the screen, so that the browser lays out what has changed.
    this.#editor.show(this.#state.script, answers, this.#seen, bad);
    this.#guide.show(this.#now());
    this.#planPicture();
  }

  // A link may have a size or a version that there is not.
  #showChoices() {
    const { capacity, version } = this.#state;
    byId('capacity').value = capacity;
    refuse(byId('capacity'), whyNoWhole(String(capacity), byId('capacity').min, byId('capacity').max));
    byId('version').value = version;
    refuse(byId('version'), version === 1 || version === 2 ? null : `There is no version ${version}: choose One or Two.`);
    byId('undo').disabled = this.#undone.isEmpty;
  }

  #showPlace() {
    const { events, answers, last } = this.#replayed;
    const at = byId('at');
    at.max = events.length;
    at.value = this.#seen;
    say(byId('place'), `Event ${this.#seen} of ${events.length}`);
    byId('back').disabled = this.#seen === 0;
    byId('forward').disabled = this.#seen === last;
    const answer = answers[this.#seen - 1];
    say(byId('said'), answer === undefined ? 'Nothing has happened yet.' : sentenceOf(this.#library, events[this.#seen - 1], answer));
    this.#showAllowed(answer);
  }

  #showAllowed(answer) {
    const isRefused = /^(refused|violation)/.test(answer ?? '');
    byId('now').classList.toggle('refused', isRefused);
    const found = isRefused ? allowing(this.#library, this.#state, this.#seen - 1, answer) : null;
    this.#allowed = found?.session ?? null;
    byId('allowed').hidden = !isRefused;
    byId('allow').hidden = found === null;
    say(byId('allowed-text'), found === null ? 'nothing that this page knows of: the refusal is for good.' : `${found.say}.`);
  }

  // A session that has left the tour is sent without it.
  #link() {
    const seen = this.#seen < this.#replayed.last ? this.#seen : null;
    const isOnTour = this.#guide.isOn && tourPlace(this.#now()) !== null;
    return linkOf(this.#state, { seen, isOnTour });
  }

  #showLink() {
    const link = this.#link();
    const isShort = link.length <= LONGEST_LINK;
    const hash = isShort ? `#${link}` : '#';
    byId('link').href = hash;
    byId('link').hidden = byId('copy').disabled = !isShort;
    say(byId('copied'), isShort ? '' : 'This session is too long for a link: copy its script.');
    this.#address.write(hash);
  }

  // ---- the picture

  // The picture is drawn after the page is shown, and only the last one that was scheduled.
  #planPicture() {
    this.#callOff();
    const isLong = this.#seen > DRAWN_AT_ONCE;
    byId('draw').hidden = !isLong;
    say(byId('draw'), `Draw the picture of ${counted(this.#seen, 'event')}`);
    if (isLong) {
      this.#picture.clear();
    } else {
      this.#callOff = whenIdle(() => this.#draw());
    }
  }

  #draw() {
    const { status, shown, told } = this.#library.chart(this.#now());
    if (status === 0) {
      this.#picture.show(shown);
    } else {
      this.#picture.clear();
      sayIf(byId('fault'), faultInWords(told));
    }
  }
}

/** Returns the line of a fault for the page. */
export function faultInWords(told) {
  const text = told.trim().replace(/^lcmux(_chart)?: /, '');
  if (text === '') {
    return 'There are versions One and Two.';
  }
  return text.startsWith('usage') ? 'A ring has 1 to 16,777,216 bytes.' : text.charAt(0).toUpperCase() + text.slice(1);
}
