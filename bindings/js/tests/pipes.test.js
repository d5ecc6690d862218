// A channel as two streams, and the signals of a session.
import assert from 'node:assert/strict';
import { getEventListeners } from 'node:events';
import { test } from 'node:test';
import { Channel, Code, SessionClosed, load, open } from 'lcmux';
import { entriesOf } from '../src/library.js';
import { alone, fate, pipes, settled } from './streams.js';

const { Data, Overlap } = Channel;
const counted = length => Uint8Array.from({ length }, (_, at) => at ^ (at >> 8));
const isClosed = kind => error => error instanceof SessionClosed && error.kind === kind;

async function both(config, otherConfig = config) {
  const [streams, others] = pipes();
  return Promise.all([open(streams, config), open(others, otherConfig)]);
}

async function lengthsOf(messages) {
  const lengths = [];
  for await (const message of messages) {
    lengths.push(message.length);
  }
  return lengths;
}

async function joined(messages) {
  const all = [];
  for await (const message of messages) {
    all.push(message);
  }
  return Buffer.concat(all);
}

test('bytes go through an echo of streams, over rings of 64 bytes', async () => {
  const [near, far] = await both({ capacities: 64 });
  const [data, echo] = [near.channel(Data), far.channel(Data)];
  assert.ok(data.readable instanceof ReadableStream && data.writable instanceof WritableStream);
  assert.ok(data.readable === data.readable && data.writable === data.writable);
  const bytes = counted(100_000);
  const source = new Blob([bytes]).stream();
  const [heard] = await Promise.all([joined(data.readable), source.pipeTo(data.writable), echo.readable.pipeTo(echo.writable)]);
  assert.equal(Buffer.compare(heard, bytes), 0);
  await Promise.all([near.close(), far.close()]);
});

test('a chunk is cut where the guarantees end, and at 16,384 bytes', async () => {
  const [near, far] = await both({ version: 2 }, { version: 2, capacities: 40_000 });
  await settled();
  const data = near.channel(Data);
  const writer = data.writable.getWriter();
  const lengths = lengthsOf(far.channel(Data).values());
  await writer.write(new Uint8Array(0));
  await writer.write(counted(40_000));
  await settled();
  await writer.write(counted(7));
  await writer.close();
  assert.deepEqual(await lengths, [16_384, 16_384, 7_232, 7]);
  assert.throws(() => data.finish(), { code: Code.ChannelFinished });
});

test('a write sends as much as the guarantees allow, whenever some arrive', async () => {
  const { session, other, put, get } = await alone({ version: 2 }, { version: 2, capacities: 100 });
  const writing = session.channel(Data).writable.getWriter().write(counted(50));
  const arrive = async amount => {
    other.issue(Data, amount);
    put();
    await settled();
    get();
    return other.take(Data);
  };
  assert.deepEqual(await arrive(30), counted(30));
  assert.equal(await fate(writing), null);
  assert.deepEqual(await arrive(1), counted(31).subarray(30));
  assert.deepEqual(await arrive(40), counted(50).subarray(31));
  await writing;
  assert.equal(session.channel(Data).held, 21);
});

test('a write stays within the limits, and fails where they end', async () => {
  const { session, other, put, get } = await alone({ version: 2 }, { version: 2, capacities: 100 });
  const data = session.channel(Data);
  other.issue(Data, 30);
  put();
  await settled();
  data.limitSending(20);
  const writing = data.writable.getWriter().write(counted(50));
  await assert.rejects(writing, { code: Code.PastSendLimit });
  get();
  assert.deepEqual(other.take(Data), counted(20));
  assert.equal(session.reason, null);
});

test('a stream does not fall into ever shorter messages', async () => {
  const [near, far] = await both({ capacities: 1000 });
  const bytes = counted(1_000_000);
  const [heard] = await Promise.all([joined(far.channel(Data).readable), new Blob([bytes]).stream().pipeTo(near.channel(Data).writable)]);
  assert.equal(Buffer.compare(heard, bytes), 0);
  const { messagesSent } = near.stats(Data);
  assert.ok(messagesSent < 4000, `${messagesSent} messages`);
});

test('what is no Uint8Array fails the stream, and not the session', async () => {
  const [near] = await both();
  const writer = near.channel(Data).writable.getWriter();
  await assert.rejects(writer.write('hello'), /the written chunk must be a Uint8Array, got string/);
  await assert.rejects(writer.closed, TypeError);
  assert.equal(near.reason, null);
  await near.channel(Data).send(counted(1));
});

test('a chunk that is transferred between two of its messages fails the write', async () => {
  const [near, far] = await both({ capacities: 40_000 });
  const { writable } = near.channel(Data);
  await settled();
  const chunk = counted(40_000);
  const writing = writable.getWriter().write(chunk);
  structuredClone(chunk, { transfer: [chunk.buffer] });
  await assert.rejects(writing, /the written chunk must not be detached/);
  assert.equal((await far.channel(Data).receive()).length, 16_384);
  assert.equal(near.reason, null);
});

test('a stream receives a message only when it is asked for one', async () => {
  const [near, far] = await both({ capacities: 4 });
  const { readable } = far.channel(Data);
  const data = near.channel(Data);
  await data.send(counted(4));
  const second = data.send(counted(4));
  assert.equal(await fate(second), null);
  const reader = readable.getReader();
  assert.deepEqual(await reader.read(), { value: counted(4), done: false });
  await second;
  data.finish();
  assert.deepEqual([(await reader.read()).value.length, (await reader.read()).done], [4, true]);
});

test('a cancelled stream ends the sends that lack guarantees, and what arrived stays', async () => {
  const [near, far] = await both({ capacities: 4 });
  const data = near.channel(Data);
  await data.send(counted(3));
  const waiting = data.send(counted(4));
  await settled();
  const stopped = far.channel(Data);
  const pending = stopped.readable.getReader();
  await pending.cancel(new Error('enough'));
  await assert.rejects(waiting, { code: Code.Never });
  assert.deepEqual(await stopped.receive(), counted(3));
  // A reader that waits gets no message after that.
  const other = far.channel(Overlap);
  const waits = other.readable.getReader();
  const read = waits.read();
  await settled();
  await waits.cancel();
  assert.deepEqual(await read, { value: undefined, done: true });
  await near.channel(Overlap).send(counted(2));
  assert.deepEqual(await other.receive(), counted(2));
});

test('a cancelled stream of a session that is over, or of a finished channel, is no error', async () => {
  const [near, far] = await both({ version: 2 });
  near.channel(Data).finish();
  await settled();
  await far.channel(Data).readable.cancel();
  near.abort();
  await settled();
  await near.channel(Overlap).readable.cancel();
});

test('an aborted stream aborts the session at once, also during a write', async () => {
  for (const length of [0, 5]) {
    const [near, far] = await both({ issue: 'by caller' });
    const writer = near.channel(Data).writable.getWriter();
    const writing = length > 0 ? writer.write(counted(length)) : Promise.resolve();
    writing.catch(() => {});
    await settled();
    const cause = new Error('the file is unreadable');
    await writer.abort(cause);
    assert.ok(isClosed('Aborted')(near.reason) && near.reason.cause === cause);
    await assert.rejects(far.channel(Data).receive(), isClosed('Transport'));
  }
});

test('an aborted stream aborts the session at once, whenever during a write', async () => {
  for (let turns = 0; turns < 30; turns += 1) {
    const { session, other, put } = await alone({ version: 2 }, { version: 2 });
    const writer = session.channel(Data).writable.getWriter();
    writer.write(counted(10)).catch(() => {});
    await settled();
    // Half of the chunk goes out, and the rest waits.
    other.issue(Data, 5);
    put();
    for (let turn = 0; turn < turns; turn += 1) {
      await null;
    }
    writer.abort(new Error('enough')).catch(() => {});
    await settled();
    assert.ok(session.reason !== null && isClosed('Aborted')(session.reason), `after ${turns} turns`);
  }
});

test('a source that fails aborts the session, and a reader does not take the part for the whole', async () => {
  const [near, far] = await both();
  const part = new ReadableStream({
    start: controller => controller.enqueue(counted(5)),
    pull: controller => controller.error(new Error('the disk is gone')),
  });
  const heard = joined(far.channel(Data).readable);
  await assert.rejects(part.pipeTo(near.channel(Data).writable), /the disk is gone/);
  assert.equal(near.reason.cause.message, 'the disk is gone');
  await assert.rejects(heard, isClosed('Transport'));
});

test('streams of a session that fails reject with its reason', async () => {
  const { session, comes } = await alone();
  const { readable, writable } = session.channel(Data);
  const [reader, writer] = [readable.getReader(), writable.getWriter()];
  const reading = assert.rejects(reader.read(), isClosed('Cut'));
  const written = assert.rejects(writer.closed, isClosed('Cut'));
  comes.close();
  await Promise.all([reading, written]);
  await assert.rejects(writer.write(counted(1)), isClosed('Cut'));
});

test('a pipe whose source is idle ends with a session that is closed', async () => {
  const [near, far] = await both();
  let cancelled = null;
  const idle = new ReadableStream({ cancel: reason => void (cancelled = reason) });
  const { closed } = near.channel(Overlap).writable.getWriter();
  const ends = Promise.allSettled([idle.pipeTo(near.channel(Data).writable), closed]);
  await Promise.all([near.close(), far.close()]);
  const { reason } = near;
  assert.deepEqual((await fate(ends))?.value, Array(2).fill({ status: 'rejected', reason }));
  assert.ok(cancelled === reason && isClosed('Local')(reason));
});

test('a signal ends an iteration, and no message is lost', async () => {
  const [near, far] = await both();
  const stop = new AbortController();
  const data = far.channel(Data);
  const heard = [];
  const listening = (async () => {
    for await (const message of data.values({ signal: stop.signal })) {
      heard.push(message.length);
    }
  })();
  await near.channel(Data).send(counted(1));
  await settled();
  stop.abort(new Error('enough'));
  await assert.rejects(listening, /enough/);
  await near.channel(Data).send(counted(2));
  near.channel(Data).finish();
  assert.deepEqual([heard, await lengthsOf(data)], [[1], [2]]);
  assert.throws(() => data.values({ signal: stop.signal }), /enough/);
  assert.throws(() => data.values(stop.signal), TypeError);
  assert.deepEqual(getEventListeners(stop.signal, 'abort'), []);
});

test('a signal ends the wait for a close, and the session goes on closing', async () => {
  const [near, far] = await both();
  const stop = new AbortController();
  await assert.rejects(near.close({ signal: AbortSignal.abort(new Error('before')) }), /before/);
  assert.equal(await fate(far.channel(Data).receive()), null);
  const closing = near.close({ signal: stop.signal });
  assert.equal(await fate(closing), null);
  stop.abort(new Error('too long'));
  await assert.rejects(closing, /too long/);
  assert.equal(await far.channel(Overlap).receive(), null);
  assert.deepEqual(getEventListeners(stop.signal, 'abort'), []);
  await Promise.all([far.close(), near.closed]);
  await assert.rejects(near.close({ singal: stop.signal }), /no key 'singal'/);
});

test('a signal aborts a session', async () => {
  const stop = new AbortController();
  const { signal } = stop;
  const [near, far] = await both({ signal }, {});
  const [second, other] = await both({ signal }, {});
  assert.equal(getEventListeners(signal, 'abort').length, 2);
  await Promise.all([second.close(), other.close()]);
  await settled();
  assert.equal(getEventListeners(signal, 'abort').length, 1);
  const waiting = near.channel(Data).receive();
  stop.abort(new Error('the program ends'));
  const isAborted = error => isClosed('Aborted')(error) && error.cause.message === 'the program ends';
  await assert.rejects(waiting, isAborted);
  await assert.rejects(near.closed, isAborted);
  await assert.rejects(far.closed, isClosed('Transport'));
  assert.equal(second.reason.kind, 'Local');
  assert.equal(getEventListeners(signal, 'abort').length, 0);
  // An aborted signal takes no streams.
  const [streams] = pipes();
  await assert.rejects(open(streams, { signal }), /the program ends/);
  assert.deepEqual([streams.readable.locked, streams.writable.locked], [false, false]);
  const lcmux = await load();
  assert.throws(() => lcmux.open(streams, { signal }), /the program ends/);
});

test('a signal ends the wait for a module', async () => {
  const never = new Promise(() => {});
  await assert.rejects(load(never, { signal: AbortSignal.abort(new Error('before')) }), /before/);
  const stop = new AbortController();
  const loading = load(never, { signal: stop.signal });
  assert.equal(await fate(loading), null);
  stop.abort(new Error('too slow'));
  await assert.rejects(loading, /too slow/);
  await assert.rejects(load(undefined, stop.signal), /no key/);
  const { signal } = new AbortController();
  assert.equal((await load(undefined, { signal })).hasTrapped, false);
  assert.deepEqual(getEventListeners(signal, 'abort'), []);
});

test('a signal ends the wait of open for its module', async () => {
  const { open: openLate } = entriesOf(() => new Promise(() => {}));
  const stop = new AbortController();
  const [streams] = pipes();
  const opening = openLate(streams, { signal: stop.signal });
  assert.equal(await fate(opening), null);
  const reason = new Error('too slow');
  stop.abort(reason);
  assert.deepEqual(await fate(opening), { reason });
  await assert.rejects(openLate(streams, { signal: stop.signal }), reason);
  assert.deepEqual([streams.readable.locked, streams.writable.locked], [false, false]);
  assert.deepEqual(getEventListeners(stop.signal, 'abort'), []);
});

test('a session is closed where its scope ends, and one that is over is left', async () => {
  const [near, far] = await both();
  const disposed = near[Symbol.asyncDispose]();
  assert.equal(await fate(disposed), null);
  assert.equal(await far.channel(Data).receive(), null);
  await Promise.all([disposed, far.close()]);
  assert.equal(near.reason.kind, 'Local');
  const [aborted, cut] = await both();
  aborted.abort();
  assert.equal(await aborted[Symbol.asyncDispose](), undefined);
  await settled();
  assert.equal(await cut[Symbol.asyncDispose](), undefined);
  // One that fails while it closes is an error.
  const [closing, failing] = await both();
  const rejected = assert.rejects(closing[Symbol.asyncDispose](), isClosed('Transport'));
  failing.abort();
  await rejected;
});
