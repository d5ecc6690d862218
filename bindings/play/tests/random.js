// Random scripts and streams, the same for the same seed.

import { CHANNELS } from '../src/words.js';

/** Random numbers below a bound, by xorshift. */
export function dice(seed) {
  let state = seed >>> 0 || 1;
  return bound => {
    state ^= state << 13;
    state ^= state >>> 17;
    state ^= state << 5;
    state >>>= 0;
    return state % bound;
  };
}

const pick = (roll, items) => items[roll(items.length)];

/** A line of a script. It uses few channels, so that much happens on each. */
function line(roll) {
  const side = pick(roll, ['A', 'B']);
  const channel = pick(roll, [0, 1, 1, 1, 2, 6]);
  const body = () => Array.from({ length: roll(9) }, () => roll(256).toString(16).padStart(2, '0')).join('') || '-';
  const acts = [
    () => `send ${channel} ${body()}`,
    () => `send ${channel} ${body().toUpperCase()}`,
    () => `issue ${channel} ${roll(12)}`,
    () => `issue ${channel} ${roll(12)}`,
    () => `take ${channel}`,
    () => `take ${channel}`,
    () => 'arrive',
    () => 'arrive',
    () => 'arrive',
    () => `deliver ${roll(12)}`,
    () => `deliver 4294967295`,
    () => `plead ${channel} ${roll(6)}`,
    () => `absolve ${channel} ${roll(5)}`,
    () => `honour ${channel}`,
    () => (roll(6) ? 'arrive' : `limit-sending ${channel} ${pick(roll, [roll(60), '4611686018427387904', '4611686018427387905'])}`),
    () => (roll(6) ? 'arrive' : `limit-receiving ${channel} ${pick(roll, [roll(60), '18446744073709551615'])}`),
    () => (roll(20) ? 'arrive' : `finish ${channel}`),
  ];
  return `${side} ${pick(roll, acts)()}`;
}

/** A session: a script with at most this many lines, and its peers. */
export function someSession(roll, most = 120) {
  const lines = Array.from({ length: 1 + roll(most) }, () => (roll(30) ? line(roll) : pick(roll, ['', '# a comment', '#'])));
  return { capacity: pick(roll, [1, 4, 8, 8, 16, 40]), version: 1 + roll(2), script: lines.join('\n') + (roll(4) ? '\n' : '') };
}

/** A session whose script has one invalid line. */
export function someBadSession(roll) {
  const session = someSession(roll, 12);
  const bad = ['A', 'C arrive', 'A send 1 6', 'A send 1  61', 'A send 7 61', 'A issue 1 05', 'A issue 1 4294967296', 'B take', 'B take 1 ', ' B take 1', 'A deliver -1', 'A honour 1 2', 'A send 1 6g', 'A ünknown', 'A limit-sending 1 18446744073709551616', 'A send 1 -6', 'a arrive', 'A arrive\r'];
  const lines = session.script.split('\n');
  lines.splice(roll(lines.length), 0, pick(roll, bad));
  return { ...session, script: lines.join('\n') };
}

/** The bytes of a stream: frames of either version, and occasionally other bytes. */
export function someStream(roll) {
  const isTwo = roll(2) === 1;
  const frames = [
    () => [0x10 + roll(CHANNELS.length), ...(isTwo ? [0, 0] : []), 0, 2, 0x68, 0x69],
    () => [0x20 + roll(CHANNELS.length), 0, 0, 0, 1 + roll(200)],
    () => [0x30 + roll(CHANNELS.length), 0, 0, 1, roll(256)],
    () => [0x40 + roll(CHANNELS.length), 0, 0, 0, roll(256)],
    () => [0x50 + roll(CHANNELS.length), 0, 0, 0, 0, 0, 0, 0, roll(256)],
    () => [0x60 + roll(CHANNELS.length), 0x40 * roll(2), 0, 0, 0, 0, 0, 0, 0],
    () => (isTwo ? [0x70 + roll(CHANNELS.length)] : [0x21, 0, 0, 0, 9]),
    () => (roll(8) ? [0x21, 0, 0, 0, 9] : [roll(256), roll(256)]),
  ];
  const bytes = [...(isTwo ? [0x4c, 0x43, 0x4d, 0x02] : []), ...Array.from({ length: roll(12) }, () => pick(roll, frames)()).flat()];
  return Uint8Array.from(roll(4) ? bytes : bytes.slice(0, roll(bytes.length + 1)));
}
