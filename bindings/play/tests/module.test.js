// The answers of the module equal those of the programs byte for byte, and its other output equals that of model.js, a
// second implementation of the rules, for the same events.
import assert from 'node:assert/strict';
import { readFile, readdir } from 'node:fs/promises';
import { before, test } from 'node:test';
import { Library, placesOf, standingOf } from '../src/library.js';
import { eventsOf } from '../src/script.js';
import { Model, framesOf } from './model.js';
import { programs } from './programs.js';
import { dice, someBadSession, someSession, someStream } from './random.js';

const EXAMPLES = new URL('../../../examples/', import.meta.url);
const CHARTS = new URL('../../../docs/charts/', import.meta.url);

let library;
before(async () => (library = await Library.from(await readFile(new URL('../out/lcmux_play.wasm', import.meta.url)))));

async function examples() {
  const names = (await readdir(EXAMPLES)).filter(name => name.endsWith('.script'));
  return Promise.all(
    names.map(async name => {
      const script = await readFile(new URL(name, EXAMPLES), 'utf8');
      const [, capacity, version] = /lcmux replay (\d+)(?: (\d))?\n/.exec(script);
      return { name: name.replace('.script', ''), capacity: Number(capacity), version: Number(version ?? 1), script };
    }),
  );
}

function isSame(session) {
  assert.deepEqual(library.replay(session), programs.replay(session));
  assert.deepEqual(library.chart(session), programs.chart(session));
}

test('all examples, and the pictures that are kept of them', async () => {
  const all = await examples();
  assert.equal(all.length, 9);
  for (const session of all) {
    isSame(session);
    const { shown } = library.chart(session);
    assert.equal(shown, await readFile(new URL(`${session.name}.svg`, CHARTS), 'latin1'));
  }
});

test('random scripts, right and bad', () => {
  const roll = dice(1);
  for (let count = 0; count < 120; count++) {
    isSame(count % 3 === 0 ? someBadSession(roll) : someSession(roll));
  }
});

test('arguments and sizes at their bounds', () => {
  const script = 'B issue 1 5\nA arrive\n';
  for (const capacity of [0, 1, 16777216, 16777217]) {
    assert.deepEqual(library.replay({ capacity, version: 1, script }), programs.replay({ capacity, version: 1, script }));
  }
  for (const version of [0, 3]) {
    for (const name of ['replay', 'chart', 'standing']) {
      assert.deepEqual(library[name]({ capacity: 8, version, script }), { status: 2, shown: '', told: '' });
    }
  }
  for (const lines of [2000, 2001]) {
    isSame({ capacity: 8, version: 1, script: 'A arrive\n'.repeat(lines) });
  }
  for (const length of [16777216, 16777217]) {
    const session = { capacity: 8, version: 1, script: '\n'.repeat(length) };
    assert.deepEqual(library.replay(session), programs.replay(session));
    assert.deepEqual(library.chart(session), programs.chart(session));
    const bytes = Buffer.alloc(length, 0x75);
    assert.deepEqual(library.frames(bytes), programs.frames(bytes));
    assert.deepEqual(library.stream(bytes), programs.stream(bytes));
  }
});

test('long scripts, wide rings and long messages, again and again', () => {
  const long = 'B issue 1 60000\nA arrive\n'.concat(`A send 1 ${'5a'.repeat(60000)}\nB arrive\nB take 1\nB issue 1 60000\nA arrive\n`.repeat(5));
  for (let count = 0; count < 3; count++) {
    isSame({ capacity: 60000, version: 2, script: long });
    isSame({ capacity: 16777216, version: 1, script: 'A arrive\n' });
    isSame({ capacity: 0, version: 1, script: 'A arrive\n' });
  }
});

test('random streams, whole, cut and broken', () => {
  const roll = dice(2);
  for (let count = 0; count < 200; count++) {
    const bytes = someStream(roll);
    assert.deepEqual(library.frames(bytes), programs.frames(bytes));
    if (count % 4 === 0) {
      assert.deepEqual(library.stream(bytes), programs.stream(bytes));
    }
  }
});

test('a long stream', () => {
  const bytes = Uint8Array.from({ length: 100000 }, (_, at) => [0x21, 0, 0, 0, 5][at % 5]);
  const { status, shown } = library.frames(bytes);
  assert.deepEqual([status, shown.length > 1 << 16], [0, true]);
  assert.equal(shown, programs.frames(bytes).shown);
  assert.equal(library.places(bytes).shown, framesOf(bytes).lines.join(''));
  assert.deepEqual(library.stream(bytes), programs.stream(bytes));
});

test('a megabyte of garbage', () => {
  const roll = dice(3);
  const garbage = Uint8Array.from({ length: 1 << 20 }, () => roll(256));
  for (const bytes of [garbage, garbage.subarray(1), new Uint8Array(1 << 20)]) {
    assert.deepEqual(library.frames(bytes), programs.frames(bytes));
    assert.deepEqual(library.stream(bytes), programs.stream(bytes));
  }
});

test('the places of frames, by the rules', () => {
  const roll = dice(4);
  const streams = Array.from({ length: 300 }, () => someStream(roll));
  for (const bytes of [new Uint8Array(0), Uint8Array.of(0x4c), Uint8Array.of(0x4c, 0x43, 0x4d, 0x02), ...streams]) {
    const { lines, told } = framesOf(bytes);
    assert.deepEqual(library.places(bytes), { status: told === '' ? 0 : 2, shown: lines.join(''), told });
    const { shown } = library.frames(bytes);
    assert.equal(shown, lines.map(line => line.replace(/^\d+ \d+ /, '')).join(''));
  }
});

test('answers and what stands, by the rules', () => {
  const roll = dice(5);
  for (let count = 0; count < 300; count++) {
    const session = someSession(roll);
    const model = new Model(session.capacity, session.version);
    const answers = eventsOf(session.script).map(line => `${model.step(line)}\n`);
    assert.deepEqual(library.replay(session), { status: 0, shown: answers.join(''), told: '' });
    assert.deepEqual(library.standing(session), { status: 0, shown: model.standing(), told: '' });
  }
});

test('a bad script has no state', () => {
  const roll = dice(6);
  for (let count = 0; count < 60; count++) {
    const session = someBadSession(roll);
    const { status, told } = programs.replay(session);
    assert.deepEqual(library.standing(session), { status, shown: status === 0 ? library.standing(session).shown : '', told });
  }
});

test('the sentences', async () => {
  const errors = await readFile(new URL('../../../docs/reference/errors.md', import.meta.url), 'utf8');
  const rows = [...errors.matchAll(/^\| ([VF]?)(\d+)(?: `\w+`)? \| \w+ \| ([^|]*) \|/gm)];
  const sentences = new Map(rows.map(([, mark, number, sentence]) => [{ '': 0, V: 100, F: 200 }[mark] + Number(number), sentence]));
  for (const code of [...Array(400).keys(), 4294967295]) {
    assert.equal(library.sentence(code), sentences.get(code) ?? '');
  }
});

test('what stands, and places, as the page reads them', () => {
  const session = { capacity: 8, version: 2, script: 'B issue 1 5\nA deliver 9\nB plead 1 2\nA limit-sending 1 7\nA send 1 6869\nB deliver 2\nA finish 3\n' };
  const { streams, rings } = standingOf(library.standing(session).shown);
  assert.deepEqual(streams.A, {
    version: 2,
    bytes: 21,
    delivered: 2,
    frames: [
      { offset: 0, end: 4, line: 'greeting' },
      { offset: 4, end: 13, line: 'limit-sending 1 7' },
      { offset: 13, end: 20, line: 'send 1 6869' },
      { offset: 20, end: 21, line: 'finish 3' },
    ],
  });
  assert.deepEqual(streams.B, { version: 2, bytes: 14, delivered: 9, frames: [{ offset: 9, end: 14, line: 'plead 1 2' }] });
  assert.deepEqual(rings.A1, { held: 3, wire: 2, buffered: 0, room: 3, maySend: '5', mayIssue: '-', asked: '-', isFinished: false, isEnded: false });
  assert.deepEqual(rings.A3, { held: 0, wire: 0, buffered: 0, room: 8, maySend: '-', mayIssue: '-', asked: '-', isFinished: true, isEnded: false });
  assert.deepEqual(placesOf('0 5 issue 1 5\n5 10 send 1 6869\n'), [
    { offset: 0, end: 5, line: 'issue 1 5' },
    { offset: 5, end: 10, line: 'send 1 6869' },
  ]);
});
