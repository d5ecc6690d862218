// The page's texts: counted nouns, the reasons for a bad line, and hexadecimal digits.
import assert from 'node:assert/strict';
import { test } from 'node:test';
import { whyNoWhole } from '../src/fields.js';
import { readHex } from '../src/hex.js';
import { whyBad } from '../src/lines.js';
import { isEvent, linesOf } from '../src/script.js';
import { Undo } from '../src/undo.js';
import { bytesIn, counted, sentenceOf } from '../src/words.js';
import { programs } from './programs.js';
import { dice, someBadSession, someSession } from './random.js';

test('a counted noun is in the singular for 1 alone', () => {
  const rows = [
    [0, '0 bytes'],
    [1, '1 byte'],
    ['1', '1 byte'],
    [2, '2 bytes'],
    [1001, '1,001 bytes'],
    ['4611686018427387905', '4,611,686,018,427,387,905 bytes'],
  ];
  rows.forEach(([count, words]) => assert.equal(bytesIn(count), words));
  assert.equal(counted(1, 'match', 'matches'), '1 match');
  assert.equal(counted(3, 'match', 'matches'), '3 matches');
});

test('answers in sentences, with a count of 1 and of 2', () => {
  const library = { sentence: number => `sentence ${number}` };
  const rows = [
    ['B take 1', 'took 61', 'B: take a message on channel 1. It took “a”, which makes 1 byte of its ring free again.'],
    ['B take 1', 'took 6869', 'B: take a message on channel 1. It took “hi”, which makes 2 bytes of its ring free again.'],
    ['A honour 1', 'absolved 1', 'A: honour the plead on channel 1. It gives 1 guarantee back, by a frame to B.'],
    ['A honour 1', 'absolved 4', 'A: honour the plead on channel 1. It gives 4 guarantees back, by a frame to B.'],
    ['B deliver 1', 'delivered 1 bytes 1 frames', 'B: let 1 byte arrive. 1 byte arrived at B, and with them the end of 1 frame.'],
    ['B deliver 9', 'delivered 9 bytes 2 frames', 'B: let 9 bytes arrive. 9 bytes arrived at B, and with them the end of 2 frames.'],
  ];
  rows.forEach(([line, answer, words]) => assert.equal(sentenceOf(library, line, answer), words));
});

test('a bad line of a script has its reason', () => {
  const events = 'send, issue, take, plead, absolve, honour, limit-sending, limit-receiving, finish, arrive, deliver';
  const rows = [
    ['A', `after the peer comes its event: ${events}`],
    ['C arrive', '“C” is no peer: a line begins with A or B'],
    ['A ünknown', `“ünknown” is no event: the events are ${events}`],
    ['A toString 1', `“toString” is no event: the events are ${events}`],
    ['A  arrive', 'its words are separated by single spaces, with none before the first or after the last'],
    ['A arrive ', 'its words are separated by single spaces, with none before the first or after the last'],
    ['A arrive\r', 'it contains a tab or a carriage return'],
    ['A arrive 1', 'arrive takes nothing else'],
    ['A deliver', 'deliver takes a number of bytes'],
    ['A deliver -1', '“-1” is no whole number in digits'],
    ['B take', 'take takes a channel and nothing else'],
    ['B take 7', '“7” is no channel: channels are 0 to 6'],
    ['B issue 1', 'issue takes a channel and a number'],
    ['B issue 1 05', 'the number “05” begins with a zero'],
    ['B issue 1 4294967296', 'the number “4294967296” is above 4,294,967,295'],
    ['A limit-sending 1 18446744073709551616', 'the number “18446744073709551616” is above 18,446,744,073,709,551,615'],
    ['A send 1', 'send takes a channel and a message in hexadecimal'],
    ['A send 1 6', 'the message “6” has an odd number of digits, and each byte has two'],
    ['A send 1 6g', '“g” in the message is no hexadecimal digit'],
    [`A send 1 ${'0'.repeat(25)}`, `the message “${'0'.repeat(24)}…” has an odd number of digits, and each byte has two`],
  ];
  rows.forEach(([line, why]) => assert.equal(whyBad(line), why, line));
});

test('random lines have a reason if and only if lcmux refuses them', () => {
  const roll = dice(12);
  const letters = ' AB0167-xg\t9';
  let refused = 0;
  for (let count = 0; count < 250; count++) {
    const session = count % 2 === 0 ? someSession(roll, 3) : someBadSession(roll);
    const [given = 'A arrive'] = linesOf(session.script).filter(isEvent);
    const at = roll(given.length + 1);
    const line = roll(3) === 0 ? given : given.slice(0, at) + letters[roll(letters.length)] + given.slice(at + roll(2));
    if (isEvent(line)) {
      const { status } = programs.replay({ capacity: 8, version: 1, script: `${line}\n` });
      assert.equal(whyBad(line) === null, status === 0, JSON.stringify(line));
      refused += Number(status !== 0);
    }
  }
  assert.ok(refused > 50, `${refused}`);
});

test('hexadecimal digits are read with what may stand between them, and their faults are named', () => {
  const bytes = text => Array.from(readHex(text).bytes);
  assert.deepEqual(bytes(''), []);
  assert.deepEqual(bytes('21 00:0A,ff;0X7e0x01\n\t9F'), [0x21, 0, 10, 255, 0x7e, 1, 0x9f]);
  assert.deepEqual(bytes('0 0'), [0]);
  assert.equal(readHex('21 0').why, 'There is an odd number of digits, 3, and each byte has two.');
  assert.equal(readHex('21\n0g').why, '“g” in line 2 is no hexadecimal digit: a byte has two of 0 to 9 and a to f.');
  assert.equal(readHex('21😀').why, '“😀” in line 1 is no hexadecimal digit: a byte has two of 0 to 9 and a to f.');
  assert.equal(readHex('é').bytes, undefined);
});

test('a megabyte of hexadecimal digits is read in a moment', () => {
  const text = '1f'.repeat(1 << 20);
  const spans = Array.from({ length: 5 }, () => {
    const began = performance.now();
    assert.equal(readHex(text).bytes.length, 1 << 20);
    return performance.now() - began;
  });
  assert.ok(Math.min(...spans) < 500, `${spans} ms`);
});

test('a number is a whole one in its range', () => {
  assert.equal(whyNoWhole('1', 1, 16777216), null);
  assert.equal(whyNoWhole('16777216', 1, 16777216), null);
  assert.equal(whyNoWhole('0', 1, 16777216), 'Write a whole number from 1 to 16,777,216: 0 is outside.');
  assert.equal(whyNoWhole('16777217', 1, 16777216), 'Write a whole number from 1 to 16,777,216: 16,777,217 is outside.');
  assert.equal(whyNoWhole('1.5', 0, 9), 'Write a whole number from 0 to 9, in digits: not 1.5.');
  assert.equal(whyNoWhole('', 0, 9), 'Write a whole number from 0 to 9, in digits.');
  assert.equal(whyNoWhole('18446744073709551616', 0, '18446744073709551615'), 'Write a whole number from 0 to 18,446,744,073,709,551,615: 18,446,744,073,709,551,616 is outside.');
});

test('the earlier sessions are bounded, and the latest ones are kept', () => {
  const undone = new Undo();
  const session = number => ({ capacity: 8, version: 1, script: `# ${number}\n` });
  for (let number = 0; number < 600; number += 1) {
    undone.push(session(number));
  }
  for (let number = 599; number >= 100; number -= 1) {
    assert.deepEqual(undone.pop(), session(number));
  }
  assert.equal(undone.isEmpty, true);
  const long = { capacity: 8, version: 1, script: '#'.repeat(3 << 20) };
  [1, 2, 3, 4].forEach(() => undone.push(long));
  undone.pop();
  undone.pop();
  assert.equal(undone.isEmpty, true);
  undone.push({ ...long, script: '#'.repeat(9 << 20) });
  assert.equal(undone.isEmpty, false);
});
