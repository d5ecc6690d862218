// The rules of docs/reference/sessions.md for scheduling. A write that does not complete keeps the queue unchanged.
import assert from 'node:assert/strict';
import { test } from 'node:test';
import { CHANNELS, Channel } from 'lcmux';
import { Slots } from '../src/slots.js';
import { framesOf } from './frames.js';
import { alone, fate, settled } from './streams.js';

const { Reconciliation, Data, Overlap, Capability, StaticToken } = Channel;
const bytes = length => new Uint8Array(length);
const times = (count, make) => Array.from({ length: count }, (_, at) => make(at));

/**
 * A session that has all guarantees, and whose driver writes the first message of StaticToken until `step`, by which
 * it writes one chunk more and then stops again, or `release`, by which it writes on.
 */
async function held(config) {
  const there = await alone({ issue: 'by caller', ...config }, { capacities: 2 ** 21, slots: 1000 });
  CHANNELS.forEach(it => there.other.issue(it, 2 ** 21));
  there.put();
  await settled();
  let resume;
  const hold = () => (there.hold = new Promise(resolve => (resume = resolve)));
  hold();
  await there.session.channel(StaticToken).send(bytes(1));
  await settled();
  there.writes.length = 0;
  const goOn = async next => {
    const before = resume;
    next();
    before();
    await settled();
  };
  const send = (channel, length = 1) => there.session.channel(channel).send(bytes(length));
  const step = () => goOn(hold);
  const release = async () => {
    await goOn(() => (there.hold = undefined));
    return framesOf(there.writes.splice(0), config.version);
  };
  return { ...there, send, step, release };
}

// Returns which of these sends are accepted.
const accepted = async sends => (await Promise.all(sends.map(fate))).map(it => it !== null);

test('the example of docs/reference/sessions.md, by the slots', () => {
  const slots = new Slots(16);
  let places = 16;
  const enters = channel => {
    slots.enter(channel, 1);
    places -= 1;
  };
  const leave = count => {
    places += count;
    slots.leave(count * 4, places);
  };
  times(3, () => enters(Data)); // in Data's own slot and in the two shared ones
  assert.equal(slots.hasFor(Data), false);
  assert.equal(slots.hasFor(Overlap), true);
  enters(Overlap);
  assert.equal(slots.hasFor(Overlap), false);
  leave(1); // of Data: a shared slot is free
  assert.deepEqual([slots.hasFor(Data), slots.hasFor(Overlap)], [true, true]);
  enters(Overlap);
  assert.deepEqual([slots.hasFor(Data), slots.hasFor(Overlap)], [false, false]);
  leave(4);
  assert.deepEqual([slots.hasFor(Data), slots.hasFor(Overlap)], [true, true]);
});

test('the example of docs/reference/sessions.md, by a session: no call is forgotten', async () => {
  const { send, release } = await held({ slots: 16 });
  const data = times(4, () => send(Data));
  assert.deepEqual(await accepted(data), [true, true, true, false]);
  const overlap = times(2, () => send(Overlap));
  assert.deepEqual(await accepted(overlap), [true, false]);
  // Data sent less recently.
  assert.deepEqual(await release(), ['send 1 1', 'send 1 1', 'send 1 1', 'send 2 1', 'send 1 1', 'send 2 1']);
  assert.deepEqual(await accepted([...data, ...overlap]), Array(6).fill(true));
});

test('each channel has a slot of its own, whatever the others have under way', async () => {
  const { send, release } = await held({ slots: 14 });
  const others = CHANNELS.slice(0, 6);
  for (const channel of others) {
    assert.deepEqual(await accepted([send(channel), send(channel)]), [true, false]);
  }
  assert.deepEqual(await accepted([send(StaticToken)]), [true]);
  const all = [...others, StaticToken].map(it => `send ${it} 1`);
  assert.deepEqual(await release(), [...all, ...others.map(it => `send ${it} 1`)]);
});

test('of the messages of a channel one has its own slot, whichever is left', async () => {
  const { send, release } = await held({ slots: 15 });
  await send(Data);
  await send(Data);
  assert.deepEqual(await accepted([send(Data), send(Overlap), send(Overlap)]), [false, true, false]);
  assert.deepEqual(await release(), ['1', '1', '2', '1', '2'].map(it => `send ${it} 1`));
  const slots = new Slots(15);
  slots.enter(Data, 1);
  slots.enter(Data, 1);
  slots.leave(4, 14); // the other one has Data's own slot, and the shared one is free
  slots.enter(Overlap, 1);
  assert.deepEqual([slots.hasFor(Data), slots.hasFor(Overlap)], [true, true]);
  slots.enter(Overlap, 1);
  assert.deepEqual([slots.hasFor(Data), slots.hasFor(Overlap), slots.hasFor(Capability)], [false, false, true]);
});

test('control frames take no own slots, pend as one amount, and precede messages that wait', async () => {
  const { session, send, release } = await held({ slots: 14 });
  const data = session.channel(Data);
  times(9, () => data.issue(1)); // seven have slots
  assert.equal(data.room, 65_536 - 9);
  const sends = CHANNELS.map(it => send(it));
  assert.deepEqual(await accepted(sends), Array(7).fill(true));
  const waits = send(Data);
  assert.equal(await fate(waits), null);
  const expected = [...Array(7).fill('issue 1 1'), ...CHANNELS.map(it => `send ${it} 1`), 'issue 1 2', 'send 1 1'];
  assert.deepEqual(await release(), expected);
});

test('control frames take shared slots too, and no message takes theirs', async () => {
  const { session, send, release } = await held({ slots: 16 });
  times(10, () => session.channel(Overlap).issue(1)); // nine have slots
  const sends = [send(Data), send(Data)];
  assert.deepEqual(await accepted(sends), [true, false]);
  assert.deepEqual(await release(), [...Array(9).fill('issue 2 1'), 'send 1 1', 'issue 2 1', 'send 1 1']);
  const again = await held({ slots: 16 });
  times(9, () => again.send(Data)); // three have slots
  times(9, () => again.session.channel(Overlap).issue(1)); // seven have
  const frames = await again.release();
  assert.deepEqual(frames.slice(0, 12), [...Array(3).fill('send 1 1'), ...Array(7).fill('issue 2 1'), 'issue 2 2', 'send 1 1']);
});

test('what is pending of one kind is one frame for each channel, in the order in which the channels asked', async () => {
  const { session, release } = await held({ slots: 14 });
  const [one, two] = [session.channel(Data), session.channel(Overlap)];
  times(7, () => one.issue(1));
  two.absolve(1);
  one.issue(5);
  two.absolve(2);
  one.limitReceiving(100);
  one.issue(10); // subtracted from the limit
  two.limitSending(50);
  two.limitSending(40);
  const expected = [...Array(7).fill('issue 1 1'), 'absolve 2 3', 'limit-sending 2 40', 'issue 1 15', 'limit-receiving 1 90'];
  assert.deepEqual(await release(), expected);
});

for (const [lengths, expected] of [
  [[30_000, 30_000, 5536, 1], [true, true, true, false]], // 65,536 bytes, and one more
  [[30_000, 30_000, 5537, 1], [true, true, false, false]],
  [[65_535, 1, 1], [true, true, false]],
]) {
  test(`at most 65,536 bytes of messages are queued: ${lengths}`, async () => {
    const { send, release } = await held({ slots: 64 });
    assert.deepEqual(await accepted(lengths.map(length => send(Data, length))), expected);
    assert.deepEqual(await release(), lengths.map(length => `send 1 ${length}`));
  });
}

test('headers do not count, and what was not taken counts in whole', async () => {
  const { send, step, release } = await held({ slots: 65_536 });
  const short = times(30_000, () => send(Data));
  await Promise.all(short);
  await step(); // a chunk of 65,536 bytes has 16,384 of them
  const fits = 65_536 - (30_000 - 16_384);
  const more = [send(Overlap, fits + 1), send(Capability, fits)];
  assert.deepEqual(await accepted(more), [false, true]);
  assert.deepEqual((await release()).slice(30_000), [`send 3 ${fits}`, `send 2 ${fits + 1}`]);
});

test('a longer message enters where no other is queued, and nothing behind it', async () => {
  const { send, release } = await held({ slots: 64, version: 2 });
  const short = send(Data, 1);
  const long = send(Overlap, 100_000);
  assert.deepEqual(await accepted([short, long]), [true, false]);
  assert.deepEqual(await release(), ['send 1 1', 'send 2 100000']);
  const alone = await held({ slots: 64, version: 2 });
  assert.deepEqual(await accepted([alone.send(Overlap, 2 ** 20), alone.send(Data, 1)]), [true, false]);
  assert.deepEqual(await alone.release(), ['send 2 1048576', 'send 1 1']);
});

test('the rest of a long message that is being written counts', async () => {
  const { send, step, release } = await held({ slots: 64, version: 2 });
  const sends = [send(Overlap, 200_000), send(Data, 1)];
  await step();
  await step();
  assert.deepEqual(await accepted(sends), [true, false]);
  await step(); // less than 65,536 bytes are left
  assert.deepEqual(await accepted(sends), [true, true]);
  assert.deepEqual(await release(), ['send 2 200000', 'send 1 1']);
});

test('a message that waits for bytes alone is not passed by channels that sent more recently', async () => {
  const { send, release } = await held({ slots: 64 });
  await send(Overlap, 10_000);
  const long = send(Data, 60_000);
  const [recent, other] = [send(Overlap, 1), send(StaticToken, 1)];
  assert.deepEqual(await accepted([long, recent, other]), [false, false, false]);
  assert.deepEqual(await release(), ['send 2 10000', 'send 1 60000', 'send 6 1', 'send 2 1']);
});

test('a channel that sent less recently passes one that waits for bytes', async () => {
  const { send, release } = await held({ slots: 64 });
  await send(Data, 10_000);
  const long = send(Data, 60_000);
  const other = send(Overlap, 1);
  assert.deepEqual(await accepted([long, other]), [false, true]);
  assert.deepEqual(await release(), ['send 1 10000', 'send 2 1', 'send 1 60000']);
});

test('of two channels that never sent one that waits for bytes does not hold up the other', async () => {
  const there = await alone({ slots: 64, issue: 'by caller' }, { capacities: 2 ** 21 });
  const { session, other, put } = there;
  [Data, Capability].forEach(it => other.issue(it, 2 ** 20));
  put();
  await settled();
  let resume;
  there.hold = new Promise(resolve => (resume = resolve));
  const send = (channel, length) => session.channel(channel).send(bytes(length));
  await send(Capability, 1); // is being written
  await settled();
  await send(Capability, 10_000);
  const sends = [send(Data, 60_000), send(Overlap, 1)];
  assert.deepEqual(await accepted(sends), [false, false]);
  other.issue(Overlap, 1);
  put();
  assert.deepEqual(await accepted(sends), [false, true]);
  there.hold = undefined;
  resume();
  await settled();
  assert.deepEqual(framesOf(there.writes), ['send 3 1', 'send 3 10000', 'send 2 1', 'send 1 60000']);
});

test('one that waits for guarantees holds up none that waits for bytes, nor does one without a slot', async () => {
  const { send, release, session } = await held({ slots: 14 });
  await send(Overlap, 10_000);
  session.channel(Data).absolve(2 ** 21);
  const poor = send(Data, 60_000);
  const slotless = send(Overlap, 60_000); // its own slot is taken
  const other = send(StaticToken, 1);
  assert.deepEqual(await accepted([poor, slotless, other]), [false, false, true]);
  assert.deepEqual(await release(), ['send 2 10000', 'absolve 1 2097152', 'send 6 1', 'send 2 60000']);
});

test('of several that can proceed the channel that sent least recently comes first, in shared slots as well', async () => {
  const { send, release } = await held({ slots: 15 });
  times(4, () => send(Overlap)); // O1 in its own, O2 in the shared one
  times(3, () => send(Capability)); // C1
  times(3, () => send(Data)); // D1
  times(1, () => send(Reconciliation)); // R1
  // Then all frames are taken. Overlap sent least recently; once each channel has its own slot, Overlap also gets the shared one.
  const expected = [
    ...['2', '2', '3', '1', '0'], // O1 O2 C1 D1 R1
    ...['2', '3', '1', '2'], // O3 C2 D2, and O4 in the shared slot
    ...['3', '1'], // C3 D3
  ];
  assert.deepEqual(await release(), expected.map(channel => `send ${channel} 1`));
});

test('a shared slot goes to the channel that sent least recently, and not to the first that asked', async () => {
  const { send, release } = await held({ slots: 15 });
  await send(Data); // its own
  await send(Overlap); // its own
  await send(Overlap); // the shared one
  const sends = [send(Overlap), send(Overlap), send(Overlap), send(Data), send(Data), send(Data)];
  assert.deepEqual(await accepted(sends), Array(6).fill(false));
  const frames = await release();
  // Data sent less recently: D2 O3 in their own slots, D3 in the shared one; then O4, D4, O5.
  assert.deepEqual(frames, ['1', '2', '2', '1', '2', '1', '2', '1', '2'].map(channel => `send ${channel} 1`));
});

test('calls of one channel keep their order, however long they are', async () => {
  const { send, release } = await held({ slots: 64 });
  const lengths = [60_000, 10_000, 1, 60_000, 1];
  assert.deepEqual(await accepted(lengths.map(length => send(Data, length))), [true, false, false, false, false]);
  assert.deepEqual(await release(), lengths.map(length => `send 1 ${length}`));
});

for (const slots of [14, 16, 40]) {
  test(`between two messages of a channel at most ${slots - 1} of others are written, of ${slots} slots`, async () => {
    const there = await alone({ slots, issue: 'by caller' }, { capacities: 2 ** 20 });
    CHANNELS.forEach(it => there.other.issue(it, 2 ** 20));
    there.put();
    await settled();
    const all = [];
    // Data has two calls at once, so that one always waits; the other channels have fifty.
    const keep = async (channel, count, rounds) => {
      for (let k = 0; k < rounds; k += 1) {
        await Promise.all(times(count, () => there.session.channel(channel).send(bytes(1))));
      }
    };
    CHANNELS.filter(it => it !== Data).forEach(it => all.push(keep(it, 50, 4)));
    all.push(Promise.all([keep(Data, 1, 40), keep(Data, 1, 40)]));
    await Promise.all(all);
    await settled();
    const order = framesOf(there.writes).filter(it => it.startsWith('send'));
    const places = order.flatMap((it, at) => (it.startsWith('send 1 ') ? [at] : []));
    assert.equal(places.length, 80);
    const gaps = places.slice(1).map((place, at) => place - places[at] - 1);
    assert.ok(Math.max(...gaps) <= slots - 1, `${gaps}`);
    assert.ok(Math.max(...gaps) > 0);
  });
}
