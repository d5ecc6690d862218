import assert from 'node:assert/strict';
import { test } from 'node:test';
import { CHANNELS, Channel, Code, ENDED, LcmuxError, SessionClosed, load, open } from 'lcmux';
import { breakHandle } from './module.js';
import { alone, fate, pipes, settled } from './streams.js';

const { Data, Overlap } = Channel;
const lcmux = await load();
const bytes = (length, mark = 0x61) => new Uint8Array(length).fill(mark);
const textOf = message => new TextDecoder().decode(message);
const later = () => {
  const it = {};
  it.promise = new Promise((resolve, reject) => Object.assign(it, { resolve, reject }));
  return it;
};
const bothOf = (first, second = first) => {
  const [there, back] = pipes();
  return [lcmux.open(there, first), lcmux.open(back, second)];
};
const tagsOf = writes => writes.flatMap(it => [...it]);

async function receiveAll(channel) {
  const messages = [];
  for await (const message of channel) {
    messages.push(message);
  }
  return messages;
}

// Message k of a channel: k, and then some bytes of the channel's number.
const messageOf = (channel, k) => Uint8Array.of(k >> 8, k, ...bytes(k % 13, channel));

async function sendAll(session, channel, count) {
  for (let k = 0; k < count; k += 1) {
    await session.channel(channel).send(messageOf(channel, k));
  }
  session.channel(channel).finish();
}

for (const [first, second] of [[1, 1], [2, 2], [1, 2]]) {
  test(`all channels both ways at once, version ${first} to ${second}`, async () => {
    const count = 300;
    const [alice, bob] = bothOf({ version: first, capacities: 32, slots: 15 }, { version: second, capacities: 20, slots: 14 });
    const wanted = channel => Array.from({ length: count }, (_, k) => messageOf(channel, k));
    const one = async (from, to, channel) => {
      const [messages] = await Promise.all([receiveAll(to.channel(channel)), sendAll(from, channel, count)]);
      assert.deepEqual(messages, wanted(channel));
    };
    await Promise.all(CHANNELS.flatMap(channel => [one(alice, bob, channel), one(bob, alice, channel)]));
    assert.deepEqual(await Promise.all([alice.close(), bob.close()]), [undefined, undefined]);
    for (const { reason } of [alice, bob]) {
      assert.ok(reason instanceof SessionClosed && reason.kind === 'Local');
    }
  });
}

test('open loads the package\'s own module', async () => {
  const [there, back] = pipes();
  const [alice, bob] = await Promise.all([open(there), open(back)]);
  await alice.channel(Data).send(bytes(3));
  assert.equal(textOf(await bob.channel(Data).receive()), 'aaa');
});

test('a send waits for guarantees, and those behind it on the channel wait for it', async () => {
  const { session, other, put, get } = await alone();
  const sends = [5, 2, 1].map(length => session.channel(Data).send(bytes(length)));
  const elsewhere = session.channel(Overlap).send(bytes(1));
  other.issue(Data, 4);
  put();
  assert.deepEqual(await Promise.all(sends.map(fate)), [null, null, null]);
  other.issue(Overlap, 1);
  other.issue(Data, 3);
  put();
  assert.deepEqual(await Promise.all([...sends, elsewhere].map(fate)), [{ value: undefined }, { value: undefined }, null, { value: undefined }]);
  get();
  assert.deepEqual([other.take(Data), other.take(Data), other.take(Data)], [bytes(5), bytes(2), null]);
});

test('a body that waits is a copy', async () => {
  const { session, other, put, get } = await alone();
  const body = bytes(3);
  const first = session.channel(Data).send(body);
  body.fill(0x62);
  const second = session.channel(Data).send(body);
  body.fill(0x63);
  other.issue(Data, 6);
  put();
  await Promise.all([first, second]);
  await settled();
  get();
  assert.deepEqual([other.take(Data), other.take(Data)].map(textOf), ['aaa', 'bbb']);
});

test('a wait whose signal aborts leaves, and those behind it go on', async () => {
  const { session, other, put, get } = await alone();
  const channel = session.channel(Data);
  const gone = new AbortController();
  const large = channel.send(bytes(9), { signal: gone.signal });
  const small = channel.send(bytes(2, 0x62), { signal: new AbortController().signal });
  const [heard, next] = [channel.receive({ signal: gone.signal }), channel.receive()];
  other.issue(Data, 2);
  put();
  const fates = () => Promise.all([large, heard, small].map(fate));
  assert.deepEqual(await fates(), [null, null, null]);
  gone.abort('enough');
  assert.deepEqual(await fates(), [{ reason: 'enough' }, { reason: 'enough' }, { value: undefined }]);
  get();
  other.send(Data, bytes(1));
  put();
  assert.deepEqual([await next, textOf(other.take(Data)), other.take(Data)], [bytes(1), 'bb', null]);
  for (const call of [() => channel.send(bytes(1), { signal: gone.signal }), () => channel.receive({ signal: gone.signal })]) {
    await assert.rejects(call(), it => it === 'enough');
  }
  assert.equal(channel.finish(), undefined);
});

test('an abort of what is done changes nothing', async () => {
  const { session, other, put, get } = await alone();
  const gone = new AbortController();
  other.issue(Data, 2);
  put();
  await session.channel(Data).send(bytes(1), { signal: gone.signal });
  gone.abort();
  await session.channel(Data).send(bytes(1, 0x62));
  await settled();
  get();
  assert.deepEqual([other.take(Data), other.take(Data)].map(textOf), ['a', 'b']);
});

test('what can never be sent is refused', async () => {
  const { session, other, put, get } = await alone({ version: 1 });
  const channel = session.channel(Data);
  const refused = async (body, code) => assert.rejects(channel.send(body), { name: 'LcmuxError', code });
  await refused(bytes(0), Code.EmptyBody);
  await refused(bytes(65_536), Code.BodyTooLong);
  for (const none of ['hello', undefined, [1], new ArrayBuffer(1)]) {
    await assert.rejects(channel.send(none), TypeError);
  }
  other.limitReceiving(Data, 3);
  put();
  await settled();
  await refused(bytes(4), Code.Never);
  const waits = channel.send(bytes(3));
  assert.equal(await fate(waits), null);
  get();
  other.issue(Data, 3);
  put();
  await waits;
  channel.finish();
  await refused(bytes(1), Code.PastSendLimit); // the limit of 0 that ends it
  assert.throws(() => channel.finish(), { code: Code.ChannelFinished });
});

test('the rings are promised at once, and anew as messages are received', async () => {
  const { session, other, put, get } = await alone({ capacities: [1, 2, 3, 4, 5, 6, 7] });
  get();
  assert.deepEqual(CHANNELS.map(channel => other.client(channel).held), [1, 2, 3, 4, 5, 6, 7]);
  const channel = session.channel(Overlap);
  other.send(Overlap, bytes(1));
  other.send(Overlap, bytes(2));
  put();
  await settled();
  get();
  assert.equal(other.client(Overlap).held, 0);
  for (const held of [1, 3]) {
    await channel.receive();
    await settled();
    get();
    assert.equal(other.client(Overlap).held, held);
  }
});

test('an iteration that is left goes on where it was', async () => {
  const [alice, bob] = bothOf({ capacities: 8 });
  const sent = (async () => {
    for (let k = 0; k < 20; k += 1) {
      await alice.channel(Data).send(Uint8Array.of(k, 0, 0, 0));
    }
    alice.channel(Data).finish();
  })();
  const seen = [];
  for await (const [k] of bob.channel(Data)) {
    seen.push(k);
    if (k === 4) {
      break;
    }
  }
  seen.push((await bob.channel(Data).receive())[0]);
  for await (const [k] of bob.channel(Data)) {
    seen.push(k);
  }
  await sent;
  assert.deepEqual(seen, Array.from({ length: 20 }, (_, k) => k));
  assert.equal(await bob.channel(Data).receive(), null);
});

for (const version of [1, 2]) {
  test(`a channel that is finished ends, behind what waits, in version ${version}`, async () => {
    const { session, other, put, get } = await alone({ version });
    const channel = session.channel(Data);
    const sent = channel.send(bytes(3));
    channel.finish();
    await assert.rejects(channel.send(bytes(1)), { code: version === 2 ? Code.ChannelFinished : Code.PastSendLimit });
    assert.equal(await fate(sent), null);
    get();
    assert.equal(other.take(Data), null);
    other.issue(Data, 3);
    put();
    await sent;
    await settled();
    get();
    assert.deepEqual([other.take(Data), other.take(Data)], [bytes(3), ENDED]);
    assert.equal(other.server(Data).finished, version === 2);
    assert.equal(session.reason, null);
  });
}

test('a slow writer holds back what is taken from the peer', async () => {
  const there = await alone({ version: 2, slots: 17 }, { capacities: 2 ** 24 });
  const { session, other, put, get, writes } = there;
  get();
  const hold = later();
  there.hold = hold.promise;
  other.issue(Data, 2 ** 24);
  put();
  await settled();
  const sends = Array.from({ length: 20 }, () => session.channel(Data).send(bytes(10_000)));
  const done = async () => (await Promise.all(sends.map(fate))).filter(it => it !== null).length;
  // Four messages are in flight, one has the channel's own slot, and three have the shared ones.
  assert.equal(await done(), 8);
  assert.deepEqual(writes.map(it => it.length), [4 * 10_005]);
  there.hold = undefined;
  hold.resolve();
  assert.equal(await done(), 20);
  await settled();
  assert.ok(writes.every(it => it.length <= 65_536));
  get();
  assert.equal(other.server(Data).buffered, 200_000);
});

test('a stream that nobody reads holds back', async () => {
  const { readable, writable } = new TransformStream();
  const comes = new TransformStream();
  const session = await lcmux.open({ readable: comes.readable, writable }, { slots: 15 });
  const other = lcmux.peer();
  other.issue(Data, 100);
  comes.writable.getWriter().write(other.write());
  const sends = [1, 2, 3].map(length => session.channel(Data).send(bytes(length)));
  assert.deepEqual(await Promise.all(sends.map(fate)), [{ value: undefined }, { value: undefined }, null]);
  // Seven issues, and the two messages that had a slot.
  const reader = readable.getReader();
  const [promises, messages] = [await reader.read(), await reader.read()];
  assert.deepEqual([promises.value.length, messages.value.length], [7 * 5, 3 + 1 + 3 + 2]);
  await sends[2];
});

test('promises of room do not wait for a slot behind messages', async () => {
  const there = await alone({ slots: 14, capacities: 8 }, { capacities: 1000 });
  const { session, other, put, get, writes } = there;
  get();
  for (const channel of CHANNELS) {
    other.issue(channel, 100);
    other.send(channel, bytes(8));
  }
  put();
  await settled();
  const hold = later();
  there.hold = hold.promise;
  const sends = Array.from({ length: 9 }, () => session.channel(Data).send(bytes(7)));
  await settled();
  const messages = await Promise.all(CHANNELS.map(channel => session.channel(channel).receive()));
  assert.equal(messages.length, 7);
  await settled();
  there.hold = undefined;
  hold.resolve();
  await Promise.all(sends);
  await settled();
  // The first message was being written, and the second had the slot; the seven issues follow.
  const order = [];
  for (let rest = tagsOf(writes); rest.length > 0; rest = rest.slice(rest[0] >> 4 === 1 ? 3 + rest[2] : 5)) {
    order.push(rest[0] >> 4);
  }
  assert.deepEqual(order.slice(0, 10), [1, 1, ...Array(7).fill(2), 1]);
  assert.equal(order.length, 16);
});

test('nothing is asked while nothing happens', async () => {
  const { session, told } = await alone();
  session.channel(Data).send(bytes(1)).catch(() => {});
  session.channel(Data).receive().catch(() => {});
  await settled();
  const { calls } = told;
  await new Promise(resolve => setTimeout(resolve, 100));
  assert.equal(told.calls, calls);
});

test('each channel has its turn', async () => {
  const there = await alone({ slots: 14 }, { capacities: 1000 });
  const { session, other, put, get } = there;
  const hold = later();
  there.hold = hold.promise;
  CHANNELS.forEach(channel => other.issue(channel, 1000));
  put();
  await settled();
  const sends = Array.from({ length: 50 }, () => session.channel(Data).send(bytes(1)));
  const elsewhere = session.channel(Overlap).send(bytes(1));
  there.hold = undefined;
  hold.resolve();
  await elsewhere;
  assert.ok((await Promise.all(sends.map(fate))).every(it => it !== null));
  const tags = tagsOf(there.writes).join(' ');
  get();
  assert.ok(other.take(Overlap) !== null);
  assert.ok(tags.indexOf('18 0 1 97') < tags.indexOf('17 0 1 97 17 0 1 97 17 0 1 97'), tags);
});

// How a session can fail, the kind of its reason, and its cause.
const broken = new Error('the cable is cut');
const isBroken = it => it === broken;
const LOSSES = {
  'the stream that comes fails': [({ comes }) => comes.error(broken), 'Transport', isBroken],
  'the stream that goes out fails': [({ goes }) => goes.error(broken), 'Transport', isBroken],
  'a write fails': [
    there => {
      there.hold = Promise.reject(broken);
      there.hold.catch(() => {});
      there.session.channel(Overlap).send(bytes(5));
    },
    'Transport',
    isBroken,
  ],
  'the stream ends before its channels did': [({ comes }) => comes.close(), 'Cut', it => it === undefined],
  'the stream ends within a frame': [
    ({ comes }) => {
      comes.enqueue(Uint8Array.of(0x21, 0));
      comes.close();
    },
    'Stopped',
    it => it.code === Code.Truncated,
  ],
  'what comes is no frame': [({ comes }) => comes.enqueue(Uint8Array.of(0xff)), 'Stopped', it => it.code === Code.BadTag],
  'what comes breaks the rules': [({ comes }) => comes.enqueue(Uint8Array.of(0x31, 1, 0, 0, 0)), 'Stopped', it => it.code === Code.AbsolvedTooMuch],
  'what comes is not bytes': [({ comes }) => comes.enqueue('text'), 'Transport', it => it instanceof TypeError],
  'this side aborts': [({ session }) => session.abort(), 'Aborted', it => it === undefined],
  'this side aborts by a cause': [({ session }) => session.abort(broken), 'Aborted', isBroken],
  'the module traps': [
    there => {
      const frame = there.other.write();
      breakHandle(there, 0);
      there.comes.enqueue(frame);
    },
    'Aborted',
    it => it instanceof WebAssembly.RuntimeError,
  ],
};

for (const [name, [lose, kind, isCause]] of Object.entries(LOSSES)) {
  test(`one reason ends every wait: ${name}`, async () => {
    const there = await alone({ slots: 14 });
    const { session, other, put } = there;
    other.issue(Overlap, 5);
    put();
    await settled();
    const isTrap = name === 'the module traps';
    const channel = session.channel(Data);
    const waits = [channel.send(bytes(5)), channel.receive(), channel[Symbol.asyncIterator]().next(), session.closed];
    assert.deepEqual(await Promise.all(waits.map(fate)), waits.map(() => null));
    lose(there);
    for (const wait of waits) {
      await assert.rejects(wait, it => it instanceof SessionClosed && it.kind === kind && isCause(it.cause));
    }
    const told = (await Promise.all(waits.map(fate))).map(it => it.reason);
    assert.equal(new Set([...told, session.reason]).size, 1);
    assert.equal('cause' in session.reason, session.reason.cause !== undefined);
    assert.equal(session.reason.message.endsWith(session.reason.cause?.message ?? ''), true);
    for (const call of [() => channel.send(bytes(1)), () => channel.receive()]) {
      assert.deepEqual(await fate(call()), { reason: session.reason });
    }
    assert.throws(() => channel.finish(), it => it === session.reason);
    assert.deepEqual(await fate(session.close()), { reason: session.reason });
    assert.deepEqual([channel.held, channel.room, channel.pleaded], [0, 0, null]);
    if (!isTrap) {
      other.free();
      assert.equal(there.exports.blocks(), 0);
    }
  });
}

test('a session whose module traps where its peer is freed ends all the same', async () => {
  const there = await alone();
  const { session, module } = there;
  const heard = session.channel(Data).receive();
  breakHandle(there, 0);
  session.abort(broken);
  const { reason } = session;
  assert.ok(reason.kind === 'Aborted' && isBroken(reason.cause) && module.hasTrapped);
  for (const wait of [heard, session.closed]) {
    await assert.rejects(wait, it => it === reason);
  }
  await settled();
  assert.deepEqual([there.cancelled, there.aborted], [reason, reason]);
});

test('what was there when the session was lost is still received', async () => {
  const { session, other, put, comes, exports } = await alone({ capacities: 100 }, { version: 2 });
  session.channel(Data);
  other.deliver(Uint8Array.of(0x21, 0, 0, 0, 9, 0x22, 0, 0, 0, 9));
  for (const k of [1, 2, 3]) {
    other.send(Data, Uint8Array.of(k));
  }
  other.send(Overlap, bytes(1));
  other.finish(Overlap);
  put();
  comes.enqueue(Uint8Array.of(0xff));
  await assert.rejects(session.closed, { kind: 'Stopped' });
  other.free();
  assert.equal(exports.blocks(), 0);
  const seen = [];
  await assert.rejects(async () => {
    for await (const [k] of session.channel(Data)) {
      seen.push(k);
    }
  }, it => it.cause.code === Code.BadTag);
  assert.deepEqual(seen, [1, 2, 3]);
  assert.deepEqual(await receiveAll(session.channel(Overlap)), [bytes(1)]);
});

test('a close refuses what waits, writes what was accepted, and reads on', async () => {
  const there = await alone({ version: 2 }, { version: 2 });
  const { session, other, put, get, comes, exports } = there;
  other.issue(Data, 3);
  put();
  await settled();
  get();
  await session.channel(Data).send(bytes(3));
  const waits = session.channel(Data).send(bytes(1));
  const closed = session.close();
  const heard = session.channel(Overlap).receive();
  const isLocal = it => it instanceof SessionClosed && it.kind === 'Local';
  await assert.rejects(waits, isLocal);
  await assert.rejects(session.channel(Data).send(bytes(1)), isLocal);
  assert.throws(() => session.channel(Data).finish(), isLocal);
  await settled();
  assert.deepEqual([...there.writes.flatMap(it => [...it])], [0x11, 0, 0, 0, 3, 0x61, 0x61, 0x61, 0x70, 0x71, 0x72, 0x73, 0x74, 0x75, 0x76]);
  assert.deepEqual([there.isClosed, await fate(closed)], [true, null]);
  other.send(Overlap, bytes(2));
  other.send(Overlap, bytes(1));
  put();
  assert.deepEqual(await heard, bytes(2));
  assert.equal(session.reason, null);
  CHANNELS.forEach(it => other.finish(it));
  put();
  comes.close();
  await closed;
  await session.closed;
  assert.ok(isLocal(session.reason));
  assert.deepEqual([await receiveAll(session.channel(Overlap)), await receiveAll(session.channel(Data))], [[bytes(1)], []]);
  await assert.rejects(session.channel(Data).send(bytes(1)), it => it === session.reason);
  other.free();
  assert.equal(exports.blocks(), 0);
});

test('what came before a Finish is received, and no room is promised behind it', async () => {
  const { session, other, put, get } = await alone({ capacities: 10 }, { version: 2 });
  get();
  other.send(Data, bytes(4));
  other.send(Data, bytes(5));
  other.finish(Data);
  put();
  await settled();
  assert.deepEqual(await receiveAll(session.channel(Data)), [bytes(4), bytes(5)]);
  await settled();
  assert.deepEqual([session.reason, get()], [null, []]);
});

test('where the other side closed, what is held may still be sent, and nothing waits for more', async () => {
  const there = await alone({ version: 2 }, { version: 2 });
  const { session, other, put, get, comes } = there;
  other.issue(Data, 5);
  put();
  const [waits, heard] = [session.channel(Data).send(bytes(6)), session.channel(Data).receive()];
  assert.deepEqual([await fate(waits), await fate(heard)], [null, null]);
  const behind = session.channel(Data).send(bytes(5));
  CHANNELS.forEach(it => other.finish(it));
  put();
  comes.close();
  const isRemote = it => it instanceof SessionClosed && it.kind === 'Remote';
  await assert.rejects(waits, isRemote);
  await behind;
  assert.deepEqual([await heard, session.reason], [null, null]);
  await assert.rejects(session.channel(Data).send(bytes(1)), isRemote);
  await session.close();
  get();
  assert.deepEqual([other.take(Data), there.isClosed, session.reason.kind], [bytes(5), true, 'Local']);
});

test('a close on both sides ends both', async () => {
  const [alice, bob] = bothOf({});
  const closed = alice.close();
  assert.equal(await bob.channel(Data).receive(), null);
  assert.equal(await fate(closed), null);
  await bob.close();
  await closed;
  await Promise.all([alice.closed, bob.closed]);
});

test('want of memory refuses a send, and the session goes on', async () => {
  const { session, other, put, get, exports } = await alone();
  other.issue(Data, 5);
  put();
  await settled();
  exports.refuse(1);
  await assert.rejects(session.channel(Data).send(bytes(5)), { code: Code.OutOfMemory });
  await session.channel(Data).send(bytes(5, 0x62));
  await settled();
  get();
  assert.deepEqual(other.take(Data), bytes(5, 0x62));
});

test('a configuration is judged, and the streams are let go', async () => {
  for (const [config, code] of [[{ slots: 65_537 }, Code.BadSlots], [{ version: 3 }, Code.BadVersion], [{ capacities: 0 }, Code.BadCapacity]]) {
    const [streams] = pipes();
    await assert.rejects(open(streams, config), error => error instanceof LcmuxError && error.code === code);
    assert.deepEqual([streams.readable.locked, streams.writable.locked], [false, false]);
  }
  const [streams] = pipes();
  for (const slots of ['1', 1.5, -1, 2 ** 32 + 1]) {
    await assert.rejects(open(streams, { slots }), slots === '1' ? TypeError : RangeError);
  }
  for (const slots of [0, 13]) {
    await assert.rejects(open(streams, { slots }), { name: 'RangeError', message: `slots must be in 14..=65536, got ${slots}` });
  }
  const writer = streams.writable.getWriter();
  await assert.rejects(open(streams), TypeError);
  assert.equal(streams.readable.locked, false);
  writer.releaseLock();
  const session = await open(streams, { slots: 65_536 });
  assert.deepEqual([streams.readable.locked, streams.writable.locked], [true, true]);
  for (const none of ['1', undefined, 1n]) {
    assert.throws(() => session.channel(none), TypeError);
  }
  for (const none of [-1, 7, 0.5, NaN]) {
    assert.throws(() => session.channel(none), RangeError);
  }
});

test('options are judged, and those that are undefined are absent', async () => {
  const { session, other, put } = await alone({ version: undefined, slots: undefined, capacities: undefined });
  const channel = session.channel(Data);
  other.issue(Data, 2);
  put();
  await settled();
  await channel.send(bytes(1), { signal: undefined });
  await channel.send(bytes(1), undefined);
  const { signal } = new AbortController();
  const named = key => ({ name: 'TypeError', message: new RegExp(`no key '${key}'`) });
  for (const call of [options => channel.send(bytes(1), options), options => channel.receive(options)]) {
    await assert.rejects(call({ singal: signal }), named('singal'));
    // A signal belongs into options.
    await assert.rejects(call(signal), { name: 'TypeError', message: /no key '\w+', only signal/ });
    await assert.rejects(call({ signal: 5 }), TypeError);
    await assert.rejects(call(5), TypeError);
  }
  const [streams] = pipes();
  await assert.rejects(open(streams, { slot: 5 }), named('slot'));
  assert.deepEqual([streams.readable.locked, streams.writable.locked], [false, false]);
});

test('a session that is over lets its streams end', async () => {
  const there = await alone();
  there.session.abort(broken);
  there.session.abort(new Error('a second reason'));
  await settled();
  const { reason } = there.session;
  assert.deepEqual([there.cancelled, there.aborted, reason.cause], [reason, reason, broken]);
});
