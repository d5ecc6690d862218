// Why the library refuses a line of a script. It names the line alone; the texts here are tested to fault the same lines.

import { U32, U64 } from './script.js';

const NUMBER = 'a channel and a number';
const CHANNEL = 'a channel and nothing else';

// The fields behind each event's word, and the greatest number that it takes.
const EVENTS = {
  send: { takes: 'a channel and a message in hexadecimal' },
  issue: { takes: NUMBER, most: U32 },
  take: { takes: CHANNEL },
  plead: { takes: NUMBER, most: U32 },
  absolve: { takes: NUMBER, most: U32 },
  honour: { takes: CHANNEL },
  'limit-sending': { takes: NUMBER, most: U64 },
  'limit-receiving': { takes: NUMBER, most: U64 },
  finish: { takes: CHANNEL },
  arrive: { takes: 'nothing else' },
  deliver: { takes: 'a number of bytes', most: U32 },
};

const SHOWN_LETTERS = 24;

const quoted = text => `“${text.length > SHOWN_LETTERS ? `${text.slice(0, SHOWN_LETTERS)}…` : text}”`;

function whySpaces(line) {
  if (/[\r\t]/.test(line)) {
    return 'it contains a tab or a carriage return';
  }
  return /^ | $| {2}/.test(line) ? 'its words are separated by single spaces, with none before the first or after the last' : null;
}

function whyNumber(text, most) {
  if (!/^\d+$/.test(text)) {
    return `${quoted(text)} is no whole number in digits`;
  }
  if (text.length > 1 && text.startsWith('0')) {
    return `the number ${quoted(text)} begins with a zero`;
  }
  return text.length > 20 || BigInt(text) > most ? `the number ${quoted(text)} is above ${most.toLocaleString('en')}` : null;
}

/** Returns why a text is no message in hexadecimal; null if it is one. */
function whyMessage(text) {
  if (text === '-') {
    return null;
  }
  const stranger = /[^0-9a-f]/i.exec(text);
  if (stranger) {
    return `${quoted(stranger[0])} in the message is no hexadecimal digit`;
  }
  return text.length % 2 === 0 ? null : `the message ${quoted(text)} has an odd number of digits, and each byte has two`;
}

function whyFields(act, { takes, most }, fields) {
  const [channel, value] = act === 'deliver' ? [undefined, fields[0]] : fields;
  const wanted = { 'nothing else': 0, [CHANNEL]: 1, 'a number of bytes': 1 }[takes] ?? 2;
  if (fields.length !== wanted) {
    return `${act} takes ${takes}`;
  }
  if (channel !== undefined && !/^[0-6]$/.test(channel)) {
    return `${quoted(channel)} is no channel: channels are 0 to 6`;
  }
  if (act === 'send') {
    return whyMessage(value);
  }
  return most === undefined ? null : whyNumber(value, most);
}

/** Returns why a line is no event of a script; null if no reason is known. */
export function whyBad(line) {
  const [side, act, ...fields] = line.split(' ');
  const spaces = whySpaces(line);
  if (spaces !== null) {
    return spaces;
  }
  if (side !== 'A' && side !== 'B') {
    return `${quoted(side)} is no peer: a line begins with A or B`;
  }
  if (!Object.hasOwn(EVENTS, act ?? '')) {
    const known = Object.keys(EVENTS).join(', ');
    return act === undefined ? `after the peer comes its event: ${known}` : `${quoted(act)} is no event: the events are ${known}`;
  }
  return whyFields(act, EVENTS[act], fields);
}
