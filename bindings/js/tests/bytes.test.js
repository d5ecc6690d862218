// Arrays that claim a wrong length, or that lose their bytes: only the intrinsics are used.
import assert from 'node:assert/strict';
import { test } from 'node:test';
import { runInNewContext } from 'node:vm';
import { CHANNELS, Channel, Code, load } from 'lcmux';
import { isArrayBuffer } from '../src/bytes.js';
import { refusingModule } from './module.js';
import { alone, settled } from './streams.js';

const { Data } = Channel;
const lcmux = await load();
const typedArray = Object.getPrototypeOf(Uint8Array.prototype);
const bufferOf = array => Object.getOwnPropertyDescriptor(typedArray, 'buffer').get.call(array);
const counted = length => Uint8Array.from({ length }, (_, at) => at);
const issued = (...amounts) => Uint8Array.from(amounts.flatMap(amount => [0x21, 0, 0, 0, amount]));

/** A peer that holds this many guarantees. */
function holding(amount, peer = lcmux.peer()) {
  peer.deliver(issued(amount));
  return peer;
}

/** An array whose every property and method is that of another array, or fails the test. */
class Liar extends Uint8Array {
  static lie = 0;
  static get [Symbol.species]() {
    assert.fail('asked for its species');
  }
  get length() {
    return Liar.lie;
  }
  get byteLength() {
    return Liar.lie;
  }
  get byteOffset() {
    return Liar.lie;
  }
  get buffer() {
    assert.fail('asked for its buffer');
  }
}
for (const name of ['set', 'slice', 'subarray', 'fill', 'at', 'keys', 'values', Symbol.iterator]) {
  Liar.prototype[name] = () => assert.fail(`called its ${String(name)}`);
}

const owning = (array, length) => Object.defineProperty(array, 'length', { value: length });
const subclass = (array, length) => {
  Liar.lie = length;
  return Object.setPrototypeOf(array, Liar.prototype);
};

/** Makes all calls while the getter of each typed array's length is replaced. */
function patched(length, run) {
  const [was, subarray] = ['length', 'subarray'].map(name => Object.getOwnPropertyDescriptor(typedArray, name));
  Object.defineProperty(typedArray, 'length', { get: () => length, configurable: true });
  Object.defineProperty(typedArray, 'subarray', { value: () => assert.fail('the patched one'), configurable: true });
  try {
    return run();
  } finally {
    Object.defineProperties(typedArray, { length: was, subarray });
  }
}

for (const [name, lying] of [['an own property', owning], ['a subclass', subclass]]) {
  for (const told of [0, 1, 9, 2 ** 31]) {
    test(`an array has the bytes that it has, where ${name} says ${told}`, () => {
      const peer = holding(100);
      peer.send(Data, lying(counted(5), told));
      assert.deepEqual(peer.write(), Uint8Array.of(0x11, 0, 5, 0, 1, 2, 3, 4));
      assert.equal(peer.deliver(lying(issued(1, 2, 3), told)), 3);
      assert.equal(peer.client(Data).held, 101);
      const other = lcmux.peer();
      other.issue(Data, 100);
      other.deliver(Uint8Array.of(0x11, 0, 2, 8, 9, 0x11, 0, 3, 5, 6, 7));
      const [large, small] = [new Uint8Array(4), new Uint8Array(2)];
      assert.equal(other.takeInto(Data, lying(large, told)), 2);
      assert.throws(() => other.takeInto(Data, lying(small, told)), { code: Code.BufferTooSmall, number: 3 });
      const wire = new Uint8Array(3);
      assert.equal(other.writeInto(lying(wire, told)), 3);
      const all = [large, small, wire].map(it => Buffer.from(bufferOf(it)).toString('hex'));
      assert.deepEqual(all, ['08090000', '0000', '210000']);
      assert.equal(other.write().length, 2);
    });
  }
}

test('a later patch of the prototype has no say', () => {
  const peer = holding(100);
  const [body, wire] = [counted(5), issued(1, 2)];
  for (const length of [0, 2 ** 31]) {
    assert.equal(patched(length, () => peer.deliver(wire)), 2);
    patched(length, () => peer.send(Data, body));
  }
  assert.equal(peer.client(Data).held, 100 + 2 * 3 - 2 * 5);
  assert.equal(peer.pending(), 2 * 8);
});

test('no array reaches the module\'s memory beside the place for bytes', async () => {
  const { exports, module, peer } = await refusingModule();
  const made = holding(100, peer({ capacities: 8 }));
  const { place, room } = module;
  const mark = Buffer.alloc(64, 0xee);
  const isMarked = () => {
    const all = Buffer.from(exports.memory.buffer);
    return [all.subarray(0, place), all.subarray(place + room)].some(it => it.includes(mark));
  };
  const long = () => new Uint8Array(room + 2 ** 19).fill(0xee);
  for (const lying of [owning, subclass]) {
    assert.throws(() => made.send(Data, lying(long(), 1)), { code: Code.BodyTooLong });
    assert.throws(() => made.deliver(lying(long(), 1)), { code: Code.BadTag });
    assert.equal(isMarked(), false);
  }
  assert.throws(() => module.put(long()), RangeError);
  assert.equal(isMarked(), false);
});

test('so many capacities are read as there are channels', () => {
  class Many extends Array {
    get length() {
      return CHANNELS.length;
    }
    map() {
      return Array.from({ length: 2 ** 20 }, () => 1);
    }
    [Symbol.iterator]() {
      assert.fail('iterated');
    }
  }
  const peer = lcmux.peer({ capacities: Object.setPrototypeOf([1, 2, 3, 4, 5, 6, 7], Many.prototype) });
  assert.deepEqual(CHANNELS.map(channel => peer.server(channel).capacity), [1, 2, 3, 4, 5, 6, 7]);
  // eslint-disable-next-line no-sparse-arrays
  assert.throws(() => lcmux.peer({ capacities: [1, 2, , 4, 5, 6, 7] }), TypeError);
});

test('an array that lost its bytes is no empty one', async () => {
  const transferred = counted(5);
  structuredClone(transferred.buffer, { transfer: [transferred.buffer] });
  const buffer = new ArrayBuffer(16, { maxByteLength: 32 });
  const shrunk = new Uint8Array(buffer, 8, 8);
  buffer.resize(12);
  const peer = holding(100);
  for (const lost of [transferred, shrunk]) {
    for (const call of [() => peer.send(Data, lost), () => peer.deliver(lost), () => peer.writeInto(lost), () => peer.takeInto(Data, lost)]) {
      assert.throws(call, /^TypeError: .* must not be detached: its buffer was transferred or has shrunk$/);
    }
    const { session } = await alone();
    await assert.rejects(session.channel(Data).send(lost), TypeError);
  }
  assert.deepEqual([peer.pending(), peer.client(Data).held], [0, 100]);
});

test('an array that grows and shrinks with its buffer has the bytes of now', () => {
  const buffer = new ArrayBuffer(4, { maxByteLength: 2 ** 21 });
  const tracking = new Uint8Array(buffer);
  const peer = holding(100);
  peer.send(Data, tracking);
  buffer.resize(2 ** 21);
  assert.throws(() => peer.send(Data, tracking), { code: Code.BodyTooLong });
  buffer.resize(1);
  peer.send(Data, tracking);
  assert.equal(peer.pending(), 3 + 4 + 3 + 1);
});

test('a body that waits is the bytes of its send, whatever it says', async () => {
  const { session, other, put, get } = await alone();
  const body = counted(3);
  const sent = session.channel(Data).send(subclass(body, 2 ** 31));
  Object.setPrototypeOf(body, Uint8Array.prototype).fill(9);
  other.issue(Data, 3);
  put();
  await sent;
  await settled();
  get();
  assert.deepEqual(other.take(Data), counted(3));
});

test('an ArrayBuffer is known in whichever realm it was made', () => {
  for (const it of [new ArrayBuffer(0), runInNewContext('new ArrayBuffer(3)')]) {
    assert.equal(isArrayBuffer(it), true);
  }
  const others = ['text', '', 0, null, undefined, {}, new Uint8Array(1), new SharedArrayBuffer(1), { byteLength: 5 }, Object.create(ArrayBuffer.prototype)];
  for (const it of others) {
    assert.equal(isArrayBuffer(it), false);
  }
});

test('a code of whose sentence is asked is a number', () => {
  for (const none of ['1', undefined, 1n, {}, { valueOf: () => 1 }]) {
    assert.throws(() => lcmux.text(none), TypeError);
  }
  for (const none of [1.5, -1, 2 ** 32 + 1]) {
    assert.throws(() => lcmux.text(none), RangeError);
  }
});
