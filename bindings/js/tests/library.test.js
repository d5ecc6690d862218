import assert from 'node:assert/strict';
import { test } from 'node:test';
import { setFlagsFromString } from 'node:v8';
import { runInNewContext } from 'node:vm';
import { Channel, Code, open } from 'lcmux';
import { pipes, settled } from './streams.js';

const { instantiate } = WebAssembly;
const instances = [];

async function counted(module) {
  const instance = await instantiate(module);
  instances.push(instance);
  return instance;
}

// Replaces WebAssembly.instantiate. A module of Node itself, which may be made meanwhile, has imports.
const forOurs = answer => (module, imports) => (imports ? instantiate(module, imports) : answer(module));

// Two sessions over one pair of pipes, and a message between them.
async function hello() {
  const [alice, bob] = await Promise.all(pipes().map(streams => open(streams)));
  await alice.channel(Channel.Data).send(Uint8Array.of(5));
  assert.deepEqual(await bob.channel(Channel.Data).receive(), Uint8Array.of(5));
  return alice;
}

test('sessions share a module, and one that trapped is loaded anew', async () => {
  WebAssembly.instantiate = forOurs(() => Promise.reject(new RangeError('no memory')));
  await assert.rejects(hello(), /no memory/);
  WebAssembly.instantiate = forOurs(counted);
  const first = await hello();
  await hello();
  assert.equal(instances.length, 1);
  new Uint8Array(instances[0].exports.memory.buffer).fill(0xf0);
  const hasTrapped = it => it.kind === 'Aborted' && it.cause instanceof WebAssembly.RuntimeError;
  await assert.rejects(first.channel(Channel.Data).send(Uint8Array.of(5)), hasTrapped);
  await assert.rejects(first.closed, hasTrapped);
  await hello();
  assert.equal(instances.length, 2);
});

// Opens sessions of the largest rings, of which a module has space for eight, at once.
function openLargest(count) {
  return Promise.all(Array.from({ length: count }, () => open(pipes()[0], { capacities: 2 ** 24 })));
}

test('a module that is full gets another one beside it, and one with free space is used again', async () => {
  const before = instances.length;
  WebAssembly.instantiate = forOurs(counted);
  // The module of the test above, and two more, of which the last has one session at first.
  const sessions = [];
  while (instances.length - before < 2) {
    sessions.push(...(await openLargest(1)));
  }
  sessions.push(...(await openLargest(7)));
  assert.equal(instances.length - before, 2);
  // The first session was in the first module.
  sessions[0].abort();
  const [again] = await openLargest(1);
  assert.equal(instances.length - before, 2);
  // Several that wait for a module at once share it, and those that it has no space for get a further one.
  const more = await openLargest(12);
  assert.equal(instances.length - before, 4);
  [...sessions, again, ...more].forEach(it => it.abort());
});

test('modules that no session uses are dropped, apart from the last', async () => {
  setFlagsFromString('--expose-gc');
  const gc = runInNewContext('gc');
  const memories = instances.splice(0).map(({ exports }) => new WeakRef(exports.memory));
  const deadline = Date.now() + 120_000;
  while (memories.filter(it => it.deref() !== undefined).length > 1) {
    assert.ok(Date.now() < deadline, 'more than one memory is held');
    await settled(); // a WeakRef keeps its target until the end of the turn
    gc();
  }
});
