// The tour on the page: its card, the button that it marks, and both and the ring on the screen.

import { byId, say } from './dom.js';
import { TOUR, TOUR_END, tourPlace } from './tour.js';

// The space between the card, the parts that the tour speaks of and the edge of the screen.
const GAP = 8;

export class Guide {
  isOn = true;
  #openChannel;
  #step = null;
  #width = innerWidth;

  /** `openChannel` opens the channel that a step speaks of. */
  constructor(openChannel) {
    this.#openChannel = openChannel;
    // On a phone the height changes while one scrolls, and the width does not.
    addEventListener('resize', () => {
      const isOther = innerWidth !== this.#width;
      this.#width = innerWidth;
      if (isOther && this.#step !== null) {
        this.#bringIntoView();
      }
    });
  }

  /** Shows where the visible part of a session is on the tour. */
  show(session) {
    const place = this.isOn ? tourPlace(session) : null;
    byId('tour').hidden = !this.isOn;
    byId('tour-start').hidden = this.isOn;
    document.body.classList.toggle('touring', place !== null);
    if (this.isOn) {
      tell(place);
    }
    const hasMoved = place !== null && place.step !== this.#step;
    this.#step = place?.step ?? null;
    if (hasMoved) {
      this.#openChannel(this.#channel);
    }
    mark(place?.left[0]);
    document.documentElement.style.scrollPaddingTop = place === null ? '' : `${byId('tour').offsetHeight + GAP}px`;
    // The page does not scroll away from a script that is written.
    if (place !== null && document.activeElement !== byId('script')) {
      this.#bringIntoView();
    }
  }

  get #channel() {
    return (TOUR[this.#step] ?? TOUR.at(-1)).channel;
  }

  // The card stays at the top, so the parts belong between it and the lower edge.
  #bringIntoView() {
    const parts = document.querySelectorAll(`#channel-${this.#channel} .ring, button.next`);
    // The ring of the other direction is hidden, and has no place.
    const places = () => Array.from(parts).filter(part => part.getClientRects().length > 0).map(part => part.getBoundingClientRect());
    const below = Math.max(...places().map(({ bottom }) => bottom)) + GAP - innerHeight;
    if (below > 0) {
      scrollBy({ top: below, behavior: 'instant' });
    }
    const above = byId('tour').getBoundingClientRect().bottom + GAP - Math.min(...places().map(({ top }) => top));
    if (above > 0) {
      scrollBy({ top: -above, behavior: 'instant' });
    }
    // The last answer, too, as far as the lower edge has space for it.
    const hidden = byId('tour').getBoundingClientRect().bottom + GAP - byId('now').getBoundingClientRect().top;
    const space = innerHeight - GAP - Math.max(...places().map(({ bottom }) => bottom));
    if (hidden > 0 && space > 0) {
      scrollBy({ top: -Math.min(hidden, space), behavior: 'instant' });
    }
  }
}

function tell(place) {
  const at = place?.step ?? null;
  byId('tour-back').disabled = at === 0;
  say(byId('tour-do'), TOUR[at] === undefined ? 'Begin anew' : 'Do it for me');
  if (at === null) {
    say(byId('tour-title'), 'The tour goes another way');
    say(byId('tour-text'), 'Go on as you like, step back to where you left the tour, or begin it anew.');
  } else if (at === TOUR.length) {
    say(byId('tour-title'), 'That is all of it');
    say(byId('tour-text'), TOUR_END);
  } else {
    say(byId('tour-title'), `${at + 1} of ${TOUR.length}: ${TOUR[at].idea}`);
    say(byId('tour-text'), TOUR[at].text);
  }
}

/** Marks the button that appends a line, and fills in its field. */
function mark(next) {
  const buttons = Array.from(document.querySelectorAll('#view-session button')).filter(({ act }) => act !== undefined);
  for (const button of buttons) {
    const isNext = next === button.act || (next?.startsWith(`${button.act} `) ?? false);
    if (isNext && button.line() !== next) {
      button.fillIn?.(next);
    }
    button.classList.toggle('next', isNext);
    button.parentElement.classList.toggle('with-next', isNext);
  }
}
