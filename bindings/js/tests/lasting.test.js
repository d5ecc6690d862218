// Sessions that come and go, and sessions that stay, over the module of the package.
import assert from 'node:assert/strict';
import { readFile } from 'node:fs/promises';
import { test } from 'node:test';
import { setFlagsFromString } from 'node:v8';
import { runInNewContext } from 'node:vm';
import { Channel, Code, load, open } from 'lcmux';
import { Module } from '../src/module.js';
import { Peer } from '../src/peer.js';
import { startSession } from '../src/session.js';
import { pipes, settled } from './streams.js';

const { Data, Overlap } = Channel;
const guide = await readFile(new URL('../../../docs/guides/many-sessions.md', import.meta.url), 'utf8');
const SESSIONS_OF_A_MODULE = Number(/an instance has space for (\d+) sessions/.exec(guide)[1]);
const compiled = WebAssembly.compile(await readFile(new URL('../out/lcmux.wasm', import.meta.url)));

setFlagsFromString('--expose-gc');
const gc = runInNewContext('gc');

/** A module of its own: how large its memory is, and a function that makes two sessions with each other. */
async function freshModule() {
  const { exports } = await WebAssembly.instantiate(await compiled);
  const module = new Module(exports);
  const both = config => pipes().map(streams => startSession(bounds => new Peer(module, bounds), streams, config));
  return { both, size: () => exports.memory.buffer.byteLength };
}

// How many bytes of objects are reachable.
async function heapUsed() {
  let least = Infinity;
  for (let turn = 0; turn < 5; turn += 1) {
    await settled();
    gc();
    least = Math.min(least, process.memoryUsage().heapUsed);
  }
  return least;
}

async function exchange(from, to, count) {
  const sending = (async () => {
    for (let k = 0; k < count; k += 1) {
      await from.channel(Data).send(Uint8Array.of(k, k >> 8, k >> 16));
    }
  })();
  for (let k = 0; k < count; k += 1) {
    const [low, middle, high] = await to.channel(Data).receive();
    assert.equal(low + 256 * middle + 65_536 * high, k);
  }
  await sending;
}

test('100,000 messages leave nothing', async () => {
  const { both, size } = await freshModule();
  const [near, far] = both({ capacities: 1000 });
  await exchange(near, far, 20_000);
  const [bytes, heap] = [size(), await heapUsed()];
  for (let round = 0; round < 4; round += 1) {
    await exchange(near, far, 20_000);
  }
  assert.equal(size(), bytes);
  // A leak of one number for each message would be 640,000 bytes.
  const more = (await heapUsed()) - heap;
  assert.ok(more < 300_000, `${more} bytes`);
  await Promise.all([near.close(), far.close()]);
});

// One of the ways in which a session ends.
async function end([near, far], turn) {
  if (turn % 3 === 0) {
    await Promise.all([near.close(), far.close()]);
  } else if (turn % 3 === 1) {
    near.abort();
    await far.closed.catch(() => {});
  } else {
    await near.channel(Data).readable.cancel();
    far.abort(new Error('enough'));
    await near.closed.catch(() => {});
  }
}

test('2,000 sessions that were opened and closed leave nothing', async () => {
  const { both, size } = await freshModule();
  const stop = new AbortController();
  const weak = [];
  const one = async turn => {
    const sessions = both({ capacities: 4096, version: 1 + (turn % 2), signal: stop.signal });
    weak.push(...sessions.map(it => new WeakRef(it)));
    await sessions[0].channel(Data).send(Uint8Array.of(5));
    await sessions[1].channel(Data).receive();
    await end(sessions, turn);
  };
  for (let turn = 0; turn < 100; turn += 1) {
    await one(turn);
  }
  const bytes = size();
  for (let turn = 100; turn < 1000; turn += 1) {
    await one(turn);
  }
  // A memory grows by pages of 65,536 bytes: 1,800 sessions leave less than 37 bytes each.
  assert.equal(size(), bytes);
  const deadline = Date.now() + 120_000;
  while (weak.some(it => it.deref() !== undefined)) {
    assert.ok(Date.now() < deadline, 'a session is held');
    await settled(); // a WeakRef keeps its target until the end of the turn
    gc();
  }
});

test('1,000 idle sessions are held, in more than one module, and each of them goes on', async () => {
  const lcmux = await load();
  const fit = [];
  assert.throws(() => {
    for (;;) {
      fit.push(lcmux.peer({ slots: 64 }));
    }
  }, { code: Code.OutOfMemory });
  // The number of docs/guides/many-sessions.md.
  assert.equal(fit.length, SESSIONS_OF_A_MODULE);
  const pairs = await Promise.all(Array.from({ length: 500 }, () => Promise.all(pipes().map(it => open(it)))));
  await Promise.all(pairs.map(([near, far]) => Promise.all([exchange(near, far, 3), exchange(far, near, 3)])));
  await Promise.all(pairs.map(([near]) => near.channel(Overlap).send(Uint8Array.of(1))));
  const heard = await Promise.all(pairs.map(([, far]) => far.channel(Overlap).receive()));
  assert.deepEqual(heard, Array(500).fill(Uint8Array.of(1)));
  pairs.flat().forEach(it => it.abort());
});

// The peer issues 65,535 bytes on Data and reads nothing.
async function openToASilentPeer() {
  let comes;
  const readable = new ReadableStream({ start: controller => (comes = controller) });
  const writable = new WritableStream({ write: () => new Promise(() => {}) });
  const session = await open({ readable, writable });
  comes.enqueue(Uint8Array.of(0x21, 0, 0, 0xff, 0xff));
  return session;
}

test('as many sessions as fill a module can each queue a message', async () => {
  const sessions = [];
  for (let count = 0; count < SESSIONS_OF_A_MODULE; count += 1) {
    sessions.push(await openToASilentPeer());
  }
  const message = new Uint8Array(60_000);
  await Promise.all(sessions.map(it => it.channel(Data).send(message)));
  sessions.forEach(it => it.abort());
});
