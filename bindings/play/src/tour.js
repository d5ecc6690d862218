// A tour of the ideas. It is a script, too: a session whose script is a prefix of it is on the tour.

import { eventsOf, joined } from './script.js';

// The steps: the idea, the channel whose ring is shown, the text, and the lines of the script.
export const TOUR = Object.freeze([
  {
    idea: 'Guarantees',
    channel: 1,
    text: 'A wants to send “hi” to B on channel 1. B has a ring buffer of 8 bytes for this channel, and has promised none of them yet. Let A send it all the same.',
    lines: ['A send 1 6869'],
  },
  {
    idea: 'Refusals',
    channel: 1,
    text:
      'Refused, and nothing was sent: A needs a guarantee for each byte of a message. A guarantee is one byte of send credit, and ' +
      'only the receiver can give it, which is B here. Let B issue 8 guarantees, one for each byte of its ring.',
    lines: ['B issue 1 8'],
  },
  {
    idea: 'Guarantees',
    channel: 1,
    text: 'B has promised the 8 bytes of its ring. The guarantees are still on the wire, so A holds none yet. Let the frame arrive at A.',
    lines: ['A arrive'],
  },
  {
    idea: 'Guarantees',
    channel: 1,
    text: 'A holds 8 guarantees, and for each of them B reserves one byte of its ring. Let A send “hi” again: it spends 2, one for each byte.',
    lines: ['A send 1 6869'],
  },
  {
    idea: 'Guarantees',
    channel: 1,
    text: 'A has 6 guarantees left. The other 2 bytes are on the wire, as a message now. Let it arrive at B, where its bytes are reserved.',
    lines: ['B arrive'],
  },
  {
    idea: 'A full channel',
    channel: 1,
    text: 'The message is buffered in the ring until B takes it. Suppose that B is slow and does not. Let A send 6 more bytes, let them arrive, and let A send once more.',
    lines: ['A send 1 616263646566', 'B arrive', 'A send 1 6869'],
  },
  {
    idea: 'The other channels',
    channel: 2,
    text:
      'Refused: A has spent all its guarantees, and B can issue none while its ring is full. So A waits, on channel 1 alone: channel 2 ' +
      'has a ring and guarantees of its own. There, let B issue 8, let A send “hi”, and let B take it.',
    lines: ['B issue 2 8', 'A arrive', 'A send 2 6869', 'B arrive', 'B take 2'],
  },
  {
    idea: 'A full channel',
    channel: 1,
    text: 'Channel 2 went on while channel 1 was full. Let B take “hi” from channel 1: its 2 bytes are free again, and B may issue 2 guarantees for them.',
    lines: ['B take 1'],
  },
  {
    idea: 'Pleads and absolving',
    channel: 2,
    text: 'On channel 2, A still holds 6 guarantees. B cannot take them back. It can plead: ask A to hold at most 2. Let B plead, and let the plead arrive at A.',
    lines: ['B plead 2 2', 'A arrive'],
  },
  {
    idea: 'Pleads and absolving',
    channel: 2,
    text: 'The plead alone changes no guarantee: A may honour it or not. Let A honour it, so that A gives 4 guarantees back (it absolves B of them), and let that arrive at B.',
    lines: ['A honour 2', 'B arrive'],
  },
  {
    idea: 'Limits',
    channel: 2,
    text: 'B has 4 more free bytes now. A side may also limit what it will still do. Let A limit its sending to 0 more bytes, and let that arrive at B.',
    lines: ['A limit-sending 2 0', 'B arrive'],
  },
  {
    idea: 'A channel that ends',
    channel: 2,
    text: 'A can send nothing more on channel 2, and B knows it. Let B take once more: the answer is “ended”, and not “empty”.',
    lines: ['B take 2'],
  },
]);

/** The text after the last step. */
export const TOUR_END =
  'Held, on the wire, buffered and free: at every step they were the whole ring. There are five other channels, and B can ' +
  'send to A on each of the seven. Go on by yourself, or leave the tour, choose an example, or copy the link to your session.';

export const TOUR_LINES = Object.freeze(TOUR.flatMap(({ lines }) => lines));

export const TOUR_SESSION = Object.freeze({ capacity: 8, version: 1 });

/**
 * Returns the position of a session on the tour: the step and its remaining lines; null if the session has left the
 * tour.
 */
export function tourPlace({ capacity, version, script }) {
  const events = eventsOf(script);
  const isOn = capacity === TOUR_SESSION.capacity && version === TOUR_SESSION.version && events.length <= TOUR_LINES.length && events.every((line, at) => line === TOUR_LINES[at]);
  return isOn ? placeAfter(events.length) : null;
}

function placeAfter(count) {
  let begun = 0;
  for (const [step, { lines }] of TOUR.entries()) {
    if (count < begun + lines.length) {
      return { step, left: lines.slice(count - begun) };
    }
    begun += lines.length;
  }
  return { step: TOUR.length, left: [] };
}

/** Returns the step to which a session goes back: the beginning of its step, or the one before; where it left the tour. */
export function stepBack(session) {
  const place = tourPlace(session);
  if (place === null) {
    const events = eventsOf(session.script);
    const same = TOUR_LINES.findIndex((line, at) => line !== events[at]);
    return placeAfter(same < 0 ? TOUR_LINES.length : same).step;
  }
  const hasBegun = place.left.length > 0 && place.left.length < TOUR[place.step].lines.length;
  return Math.max(place.step - (hasBegun ? 0 : 1), 0);
}

/** Returns the script of the tour up to a step. */
export const tourScript = step => joined(TOUR.slice(0, step).flatMap(({ lines }) => lines));
