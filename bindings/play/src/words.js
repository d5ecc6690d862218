// Events and answers in words. The text of a refusal is the library's sentence. A change that would have allowed the
// event is searched among candidates, and only one that the library accepts is shown.

import { continuedBy, eventsOf, fieldsOf, lengthOf, otherSide, readable } from './script.js';

export const CHANNELS = ['Reconciliation', 'Data', 'Overlap', 'Capability', 'AreaOfInterest', 'PayloadRequest', 'StaticToken'];

const english = new Intl.NumberFormat('en');

/** Returns a number, which may be a text of digits, with commas. */
export const grouped = number => english.format(BigInt(number));

/** Returns a number, which may be a text of digits, with the noun that it counts. */
export const counted = (count, one, many = `${one}s`) => `${grouped(count)} ${BigInt(count) === 1n ? one : many}`;

export const bytesIn = count => counted(count, 'byte');

/** Describes an act, without its side. */
export function actInWords({ act, channel, value }) {
  const words = {
    send: () => `send ${readable(value)}`,
    issue: () => `issue ${value}`,
    plead: () => `plead to hold at most ${value}`,
    absolve: () => `absolve ${value}`,
    honour: () => 'honour the plead',
    'limit-sending': () => `limit sending to ${value}`,
    'limit-receiving': () => `limit issuing to ${value}`,
    finish: () => 'finish',
    take: () => 'take a message',
    arrive: () => 'let the next frame arrive',
    deliver: () => `let ${bytesIn(value)} arrive`,
  }[act];
  const asked = words === undefined ? act : words();
  return channel === undefined ? asked : `${asked} on channel ${channel}`;
}

/** Describes a frame's line in a few words, with its channel, if it has one. */
export function frameInWords(line) {
  const [kind, channel, value] = line.split(' ');
  const words = {
    send: () => `send ${readable(value)}`,
    plead: () => `plead to hold at most ${value}`,
    'limit-sending': () => `limit sending to ${value}`,
    'limit-receiving': () => `limit issuing to ${value}`,
  }[kind];
  const rest = value === undefined ? kind : `${kind} ${value}`;
  return { channel: channel === undefined ? null : Number(channel), words: words === undefined ? rest : words() };
}

/** Parses the number of a refusal and the value that it carries; null for any other answer. */
export function refusalOf(answer) {
  const found = /^refused (\d+)(?: (\w+) (\d+))?$/.exec(answer ?? '');
  return found && { number: Number(found[1]), name: found[2] ?? null, value: found[3] ?? null };
}

/** Describes an event with its answer, in a sentence. */
export function sentenceOf(library, line, answer) {
  const event = fieldsOf(line);
  const asked = `${event.side}: ${actInWords(event)}`;
  const refusal = refusalOf(answer);
  if (refusal) {
    const compared = refusal.name === null ? '' : ` (${refusal.name} ${refusal.value})`;
    return `${asked}. Refusal ${refusal.number}: ${library.sentence(refusal.number)}${compared}. Nothing has changed.`;
  }
  return `${asked}. ${answerInWords(event, answer)}`;
}

// The meaning of an empty result, by the act.
const NOTHING = {
  honour: 'There is nothing to give back.',
  deliver: 'No byte is on the wire.',
  arrive: 'No frame is on the wire.',
};

function answerInWords({ side, act }, answer) {
  const [kind, first, , frames] = answer.split(' ');
  switch (kind) {
    case 'ok':
      return `Accepted: the frame is on the wire to ${otherSide(side)}.`;
    case 'absolved':
      return `It gives ${counted(first, 'guarantee')} back, by a frame to ${otherSide(side)}.`;
    case 'arrived':
      return `A frame arrived at ${side}.`;
    case 'delivered':
      return `${bytesIn(first)} arrived at ${side}, and with them the end of ${counted(frames, 'frame')}.`;
    case 'took':
      return `It took ${readable(first)}, which makes ${bytesIn(lengthOf(first))} of its ring free again.`;
    case 'empty':
      return 'No message is buffered.';
    case 'ended':
      return 'The channel has ended: no message is buffered, and none will arrive.';
    case 'violation':
      return `What arrived breaks the rules of the protocol: ${first}.`;
    default:
      return NOTHING[act] ?? answer;
  }
}

// Lines that deliver all bytes in flight to a side.
const allTo = side => `${side} deliver 4294967295`;

const MAX_BOUND = '4611686018427387904';

/** Candidates that could allow a refused event: lines before it, and a changed event, the most likely first. */
function* ways(line, refusal) {
  const { side, act, channel, value } = fieldsOf(line);
  const other = otherSide(side);
  const instead = words => [`${side} ${act} ${channel} ${words}`];
  const left = refusal.value;
  switch (refusal.number) {
    case 1:
      yield { say: 'a message of at least 1 byte', lines: instead('61') };
      yield { say: 'a message of at least 1 byte, with a guarantee for it', lines: [`${other} issue ${channel} 1`, allTo(side), ...instead('61')] };
      break;
    case 2:
      yield { say: 'a shorter message', lines: instead(value.slice(0, 2 * 65535)) };
      break;
    case 3:
    case 4: {
      const length = lengthOf(value);
      const missing = length - Number(left);
      if (refusal.number === 4) {
        const issued = [allTo(side), `${other} issue ${channel} ${missing}`, allTo(side), line];
        yield { say: `what is on the wire to ${side}, once it has arrived`, lines: [allTo(side), line] };
        yield { say: `${counted(missing, 'guarantee')} more, issued by ${other} and arrived at ${side}`, lines: issued };
        const taken = [allTo(other), ...Array(8).fill(`${other} take ${channel}`), ...issued];
        yield { say: `${counted(missing, 'guarantee')} more, issued by ${other} when it has taken messages, and arrived at ${side}`, lines: taken };
      }
      if (Number(left) > 0) {
        yield { say: `a message of at most ${bytesIn(left)}`, lines: instead(value.slice(0, 2 * Number(left))) };
      }
      break;
    }
    case 5:
      yield { say: 'an amount of at least 1', lines: instead('1') };
      break;
    case 6:
    case 8:
    case 9:
      yield { say: `at most ${left}`, lines: instead(left) };
      break;
    case 7:
      yield { say: `a bound of at most 2^62, which is ${MAX_BOUND}`, lines: instead(MAX_BOUND) };
      break;
    case 10:
      yield { say: `at most ${left}, as much as is free`, lines: instead(left) };
      yield { say: `room: ${side} takes a message first`, lines: [allTo(side), `${side} take ${channel}`, line] };
      break;
    case 11:
      yield { say: `a target below ${left}`, lines: instead(String(Number(left) - 1)) };
      break;
    case 17:
      yield { say: 'version Two, chosen above', lines: [line], version: 2 };
      break;
    default:
      break;
  }
}

/** Returns the first candidate that the library accepts instead of a refused event; null if there is none. */
export function allowing(library, session, count, answer) {
  const line = eventsOf(session.script)[count];
  const answerAt = (state, at) => library.replay(state).shown.split('\n')[at];
  const refusal = refusalOf(answer);
  for (const { say, lines, version = session.version } of refusal ? ways(line, refusal) : []) {
    const tried = { ...session, version, script: continuedBy(session.script, count, lines) };
    if (answerAt(tried, count + lines.length - 1) === 'ok') {
      return { say, session: tried };
    }
  }
  return null;
}
