import assert from 'node:assert/strict';
import { test } from 'node:test';
import { setFlagsFromString } from 'node:v8';
import { runInNewContext } from 'node:vm';
import { Channel, Code, load } from 'lcmux';
import { refusingModule } from './module.js';

const { Data } = Channel;
const hello = new TextEncoder().encode('hello');
const guarantees = Uint8Array.of(0x21, 0, 0, 0, 5);

// The place of the refused request: in making the peer, in the send, or nowhere.
function refusedIn({ exports, peer }, request) {
  exports.refuse(request);
  let made;
  try {
    made = peer({ capacities: 8, slots: 4 });
  } catch (error) {
    assert.equal(error.code, Code.OutOfMemory);
    assert.equal(exports.blocks(), 0);
    return 'peer';
  }
  made.deliver(guarantees);
  let where = 'nowhere';
  try {
    made.send(Data, hello);
  } catch (error) {
    assert.equal(error.code, Code.OutOfMemory);
    where = 'send';
    assert.deepEqual([made.client(Data).held, made.pending()], [5, 0]);
    made.send(Data, hello);
  }
  assert.deepEqual([made.client(Data).held, made.pending()], [0, 8]);
  made.free();
  assert.equal(exports.blocks(), 0);
  return where;
}

test('each request for memory is refused in turn', async () => {
  const refusing = await refusingModule();
  const where = [];
  for (let request = 1; where.at(-1) !== 'nowhere'; request += 1) {
    where.push(refusedIn(refusing, request));
  }
  // The 18 requests of a new peer, the one of a message, and a handle.
  assert.deepEqual(where, [...Array(19).fill('peer'), 'send', 'nowhere']);
  assert.equal(refusing.exports.requests(), 20);
});

test('100,000 peers are made and freed', async () => {
  const { exports, peer } = await refusingModule();
  let size = 0;
  for (let count = 0; count < 100_000; count += 1) {
    const made = peer({ capacities: 1 + (count % 50_000), slots: 1 + (count % 100) });
    made.issue(Data, 1);
    made.free();
    size ||= count === 50_000 && exports.memory.buffer.byteLength;
  }
  assert.equal(exports.blocks(), 0);
  assert.equal(exports.memory.buffer.byteLength, size);
  assert.ok(size < 2 ** 23, `${size} bytes`);
});

test('peers that nothing holds are freed', async () => {
  setFlagsFromString('--expose-gc');
  const gc = runInNewContext('gc');
  const { exports, peer } = await refusingModule();
  (() => {
    for (let count = 0; count < 100; count += 1) {
      peer({ capacities: 8 }).issue(Data, 1);
    }
  })();
  const kept = peer({ capacities: 8 });
  const all = exports.blocks();
  assert.equal(all, 101 * 19);
  while (exports.blocks() > 19) {
    gc();
    await new Promise(resolve => setTimeout(resolve, 1));
  }
  kept.issue(Data, 1);
  assert.deepEqual([kept.pending(), exports.blocks()], [5, 19]);
});

test('a peer that was freed is not freed again', async () => {
  setFlagsFromString('--expose-gc');
  const gc = runInNewContext('gc');
  const { exports, told, peer } = await refusingModule();
  (() => {
    for (let count = 0; count < 100; count += 1) {
      peer({ capacities: 8 }).free();
    }
  })();
  const kept = Array.from({ length: 10 }, () => peer({ capacities: 8 }));
  const { calls } = told;
  for (let turn = 0; turn < 20; turn += 1) {
    gc();
    await new Promise(resolve => setTimeout(resolve, 1));
  }
  assert.deepEqual([exports.blocks(), told.calls], [190, calls]);
  kept.forEach(it => it.issue(Data, 1));
});

test('a module that ran out of memory goes on', async () => {
  const lcmux = await load();
  const peers = [];
  const most = { capacities: 2 ** 24 };
  assert.throws(() => {
    for (;;) {
      peers.push(lcmux.peer(most));
    }
  }, { code: Code.OutOfMemory });
  // Of 2^31 bytes, each of seven rings takes 2^24 for its bytes, 2^20 for one message, and 2^24 for the lengths.
  assert.equal(peers.length, 8);
  for (const peer of peers) {
    peer.issue(Data, 5);
    assert.equal(peer.write().length, 5);
  }
  assert.throws(() => lcmux.peer(most), { code: Code.OutOfMemory });
  peers.pop().free();
  const again = lcmux.peer(most);
  again.deliver(guarantees);
  again.send(Data, hello);
  assert.equal(again.pending(), 8);
  assert.throws(() => lcmux.peer(most), { code: Code.OutOfMemory });
});

// A heap of 500 blocks, each filled with bytes of its own, under a walk of requests.
class Blocks {
  #exports;
  #blocks = [];
  #seed = 7;

  constructor(exports) {
    this.#exports = exports;
  }

  below(most) {
    this.#seed = (Math.imul(this.#seed, 1_103_515_245) + 12_345) >>> 0;
    return (this.#seed >>> 8) % most;
  }

  get #size() {
    return this.below(8) ? this.below(500) : this.below(50_000);
  }

  #fill(at, length) {
    const mark = this.below(256);
    new Uint8Array(this.#exports.memory.buffer, at, length).fill(mark);
    return { at, length, mark };
  }

  #check({ at, length, mark }) {
    const bytes = new Uint8Array(this.#exports.memory.buffer, at, length);
    assert.ok(bytes.every(byte => byte === mark), `block at ${at}`);
  }

  step() {
    const turn = this.below(500);
    const block = this.#blocks[turn];
    const length = this.#size;
    if (block === undefined) {
      const at = this.#exports.heap_alloc(length, 16);
      assert.ok(at > 0 && at % 16 === 0);
      this.#blocks[turn] = this.#fill(at, length);
    } else {
      this.#check(block);
      this.#exports.heap_free(block.at);
      this.#blocks[turn] = undefined;
    }
  }

  freeAll() {
    for (const block of this.#blocks.filter(it => it !== undefined)) {
      this.#check(block);
      this.#exports.heap_free(block.at);
    }
    this.#blocks = [];
  }
}

test('the heap gives each block bytes of its own, and joins what is free', async () => {
  const { exports } = await refusingModule();
  const blocks = new Blocks(exports);
  for (let step = 0; step < 20_000; step += 1) {
    blocks.step();
  }
  blocks.freeAll();
  assert.equal(exports.blocks(), 0);
  // All blocks are merged again: nearly the whole memory can be allocated at once, and it does not grow.
  const size = exports.memory.buffer.byteLength;
  const data = 2 ** 20 + 2 ** 17;
  const at = exports.heap_alloc(size - data - 2 ** 16, 16);
  assert.ok(at > 0);
  assert.equal(exports.memory.buffer.byteLength, size);
  // A size that the memory never has, and a wider alignment than a block's.
  assert.deepEqual([[2 ** 31, 1], [2 ** 32 - 1, 1], [1, 32]].map(it => exports.heap_alloc(...it)), [0, 0, 0]);
  exports.heap_free(at);
  assert.equal(exports.blocks(), 0);
});
