// The copies of waiting bodies: a buffer is used again only once its copy was given back.
import assert from 'node:assert/strict';
import { test } from 'node:test';
import { Copies } from '../src/copies.js';

const filled = (size, byte) => new Uint8Array(size).fill(byte);

test('a copy has the bytes of the call', () => {
  const copies = new Copies();
  for (const size of [1, 4_095, 4_096, 65_536, 65_537]) {
    const body = filled(size, 7);
    const copy = copies.of(body);
    body.fill(8);
    assert.deepEqual(copy, filled(size, 7));
  }
});

test('a buffer is used again once its copy was given back, by one copy alone', () => {
  const copies = new Copies();
  const first = copies.of(filled(60_000, 1));
  assert.notEqual(copies.of(filled(60_000, 2)).buffer, first.buffer);
  copies.free(first);
  const again = copies.of(filled(5_000, 3));
  assert.equal(again.buffer, first.buffer);
  assert.deepEqual(again, filled(5_000, 3));
  assert.notEqual(copies.of(filled(5_000, 4)).buffer, first.buffer);
  assert.deepEqual(again, filled(5_000, 3));
});

test('the longer of two buffers is kept, and none above 64 KiB or below 4 KiB', () => {
  const copies = new Copies();
  const [long, short] = [copies.of(filled(50_000, 1)), copies.of(filled(40_000, 2))];
  copies.free(long);
  copies.free(short);
  assert.equal(copies.of(filled(45_000, 3)).buffer, long.buffer);
  const [tiny, huge] = [copies.of(filled(4_095, 4)), copies.of(filled(65_537, 5))];
  copies.free(tiny);
  copies.free(huge);
  assert.notEqual(copies.of(filled(4_096, 6)).buffer, huge.buffer);
});
