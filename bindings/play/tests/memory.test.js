// The module's buffers, when an allocation fails, a call traps, or an array claims a wrong length.
import assert from 'node:assert/strict';
import { readFile } from 'node:fs/promises';
import { test } from 'node:test';
import { Library } from '../src/library.js';

const wasm = await WebAssembly.compile(await readFile(new URL('../out/lcmux_play.wasm', import.meta.url)));

// Inputs with a longer output than the first buffer, and with a short one.
const LONG = Uint8Array.from({ length: 50_000 }, (_, at) => [0x21, 0, 0, 0, 5][at % 5]);
const SHORT = LONG.subarray(0, 5);
const SHOWN = 'issue 1 5\n';

/** The library over an instrumented heap: no call gets a freed address, or more bytes than a block has. */
class Watched {
  blocks = new Map();
  /** Whether a request of this size is refused. */
  refuses = () => false;
  /** The name of the call that traps. */
  traps = null;
  calls = [];
  #exports;

  async library() {
    this.blocks.clear();
    this.#exports = (await WebAssembly.instantiate(wasm)).exports;
    const watched = Object.entries(this.#exports).map(([name, it]) => [name, typeof it === 'function' ? this.#watch(name, it) : it]);
    const { instantiate } = WebAssembly;
    WebAssembly.instantiate = async () => ({ instance: { exports: Object.fromEntries(watched) } });
    try {
      return await Library.from(null);
    } finally {
      WebAssembly.instantiate = instantiate;
    }
  }

  #watch(name, call) {
    const judged = {
      alloc: size => this.#alloc(size),
      dealloc: at => {
        assert.ok(this.blocks.delete(at), `freed at ${at}`);
        call(at);
      },
      frames: (at, length, out, room) => {
        this.#isWithin(at, length);
        this.#isWithin(out, room);
        return call(at, length, out, room);
      },
    };
    return (...words) => {
      this.calls.push(name);
      if (name === this.traps) {
        throw new WebAssembly.RuntimeError('unreachable');
      }
      return (judged[name] ?? call)(...words);
    };
  }

  #alloc(size) {
    const at = this.refuses(size) ? 0 : this.#exports.alloc(size);
    if (at !== 0) {
      this.blocks.set(at, size);
    }
    return at;
  }

  #isWithin(at, length) {
    assert.ok(length <= (this.blocks.get(at) ?? -1), `${length} bytes at ${at}, which is no block of so many`);
  }

  /** Whether a block outside of the library is unchanged. */
  isKept(run) {
    const memory = () => new Uint8Array(this.#exports.memory.buffer);
    const at = this.#exports.alloc(64);
    memory().fill(0xee, at, at + 64);
    run();
    return memory().slice(at, at + 64).every(byte => byte === 0xee);
  }
}

for (const [name, refuses] of [
  ['the wider buffer for the answer', size => size > 1 << 16],
  ['the first buffer for the answer', size => size === 1 << 16],
  ['the buffer for what goes in', size => size < 1 << 16],
]) {
  test(`no call is given a buffer that was freed, where memory is refused: ${name}`, async () => {
    const watched = new Watched();
    const library = await watched.library();
    watched.refuses = refuses;
    assert.throws(() => library.frames(LONG), /an allocation of \d+ bytes failed/);
    watched.refuses = () => false;
    assert.deepEqual(library.frames(SHORT), { status: 0, shown: SHOWN, told: '' });
    assert.equal(library.frames(LONG).shown, SHOWN.repeat(10_000));
    assert.equal(watched.blocks.size, 2);
  });
}

test('a call that is refused memory again and again leaves no block behind', async () => {
  const watched = new Watched();
  const library = await watched.library();
  for (let turn = 0; turn < 10; turn += 1) {
    watched.refuses = size => size > 1 << 16;
    assert.throws(() => library.frames(LONG), /an allocation of \d+ bytes failed/);
    assert.ok(watched.blocks.size <= 2);
    watched.refuses = () => false;
    assert.equal(library.frames(SHORT).shown, SHOWN);
  }
  assert.equal(watched.blocks.size, 2);
});

for (const trapping of ['frames', 'alloc', 'answered']) {
  test(`after a trap no call of the module is made: ${trapping}`, async () => {
    const watched = new Watched();
    const library = await watched.library();
    watched.traps = trapping;
    assert.throws(() => library.frames(SHORT), WebAssembly.RuntimeError);
    watched.traps = null;
    const { length } = watched.calls;
    assert.throws(() => library.frames(LONG), /an earlier call of the module trapped/);
    assert.throws(() => library.replay({ capacity: 8, version: 1, script: 'A arrive\n'.repeat(5000) }), /an earlier call of the module trapped/);
    assert.equal(watched.calls.length, length);
  });
}

test('an array that lies about its length is taken as long as it is', async () => {
  const watched = new Watched();
  const library = await watched.library();
  const lying = (bytes, length) => Object.defineProperty(bytes.slice(), 'length', { value: length });
  const long = new Uint8Array(1 << 20).fill(0x21);
  const wanted = library.frames(long);
  assert.deepEqual(library.frames(lying(long, 1)), wanted);
  assert.equal(library.frames(lying(SHORT, 1 << 20)).shown, SHOWN);
  const another = await watched.library();
  assert.ok(watched.isKept(() => another.frames(lying(long, 1))), 'bytes beside the buffers were written');
});
