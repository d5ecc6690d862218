// Scripts as texts: their lines, and which of them are events.

/** A script with its capacity and its version. */
export const EMPTY = Object.freeze({ capacity: 8, version: 1, script: '' });

/** The greatest amount and the greatest bound of a limit that a script can have. */
export const U32 = 4294967295n;
export const U64 = 18446744073709551615n;

export const isEvent = line => line !== '' && !line.startsWith('#');

/** Returns the lines of a script; a line feed at its end begins no line. */
export function linesOf(script) {
  const lines = script.split('\n');
  if (lines.at(-1) === '') {
    lines.pop();
  }
  return lines;
}

export const eventsOf = script => linesOf(script).filter(isEvent);

export const joined = lines => lines.map(line => `${line}\n`).join('');

/** Returns the lines up to and including this many events. */
export function prefixOf(script, count) {
  let left = count;
  const lines = linesOf(script);
  const end = lines.findIndex(line => isEvent(line) && left-- === 0);
  return joined(end < 0 ? lines : lines.slice(0, end));
}

/** Returns the script with these lines after this many of its events; they replace the rest. */
export const continuedBy = (script, count, lines) => prefixOf(script, count) + joined(lines);

/** Returns the fields of an event; missing ones are undefined. */
export function fieldsOf(line) {
  const [side, act, ...rest] = line.split(' ');
  const [channel, value] = act === 'deliver' ? [undefined, rest[0]] : rest;
  return { side, act, channel, value };
}

export const otherSide = side => (side === 'A' ? 'B' : 'A');

const digits = byte => byte.toString(16).padStart(2, '0');

export const hexOf = bytes => Array.from(bytes, digits).join('');

/** Returns the body of a message as a script writes it. */
export const bodyOf = text => hexOf(new TextEncoder().encode(text)) || '-';

/** Returns the bytes of a script's body, or of a text of digits. */
export function bytesOf(hex) {
  const text = hex === '-' ? '' : hex;
  return Uint8Array.from(text.match(/../g) ?? [], pair => parseInt(pair, 16));
}

/** Returns the number of bytes of a script's body. */
export const lengthOf = hex => (hex === '-' ? 0 : hex.length / 2);

/** Returns the text of a script's body. */
export const textOf = hex => new TextDecoder().decode(bytesOf(hex));

// The bytes of a body that are displayed.
const SHOWN_BYTES = 24;

/** Returns a body for display: its text, if it is one without control characters, else its digits. */
export function readable(hex) {
  const shown = bytesOf(hex.slice(0, 2 * SHOWN_BYTES));
  const more = lengthOf(hex) > SHOWN_BYTES ? '…' : '';
  try {
    const text = new TextDecoder('utf-8', { fatal: true }).decode(shown, { stream: more !== '' });
    if (!/\p{C}/u.test(text)) {
      return `“${text}${more}”`;
    }
  } catch {
    // The bytes are not UTF-8.
  }
  return hexOf(shown) + more;
}

/**
 * Returns the hash of the page that shows this. `place` has what is not the default: the number of visible events, if
 * some are not visible, and whether the session is on the tour.
 */
export function linkOf({ capacity, version, script }, { seen = null, isOnTour = false } = {}) {
  const given = { c: capacity, v: version, s: script, ...(seen === null ? {} : { e: seen }), ...(isOnTour ? { t: 1 } : {}) };
  return new URLSearchParams(given).toString();
}

/** Parses a hash to a session and its place; null if it is invalid. */
export function ofLink(hash) {
  const given = new URLSearchParams(hash.replace(/^#/, ''));
  if (!given.has('s')) {
    return null;
  }
  const session = { capacity: numberIn(given.get('c'), EMPTY.capacity), version: numberIn(given.get('v'), EMPTY.version), script: given.get('s') };
  return { session, place: { seen: numberIn(given.get('e'), null), isOnTour: given.get('t') === '1' } };
}

const numberIn = (text, otherwise) => (/^\d{1,8}$/.test(text ?? '') ? Number(text) : otherwise);
