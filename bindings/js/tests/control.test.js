// Issues, limits, pleads and absolves of a session: those of policies, and those of the caller.
import assert from 'node:assert/strict';
import { test } from 'node:test';
import { Channel, Code, open } from 'lcmux';
import { framesOf } from './frames.js';
import { alone, fate, pipes, settled } from './streams.js';

const { Data, Overlap } = Channel;
const bytes = length => new Uint8Array(length);
const later = () => {
  const it = {};
  it.promise = new Promise(resolve => (it.resolve = resolve));
  return it;
};

/** A session, its Data channel, and the frames that it wrote since the last check. */
async function begin(config, otherConfig) {
  const there = await alone({ capacities: 64, ...config }, otherConfig);
  const { put, other } = there;
  return Object.assign(there, {
    data: there.session.channel(Data),
    async written() {
      await settled();
      const frames = framesOf(there.writes, config?.version);
      there.writes.splice(0).forEach(it => other.deliver(it));
      return frames;
    },
    async put() {
      put();
      await settled();
    },
  });
}

test('room is issued at once, by a low-water mark, or by the caller', async () => {
  const issue = ['at once', { lowWater: 20 }, 'by caller', 'at once', 'at once', 'at once', 'at once'];
  const { session, other, written, put } = await begin({ issue });
  assert.deepEqual(await written(), [0, 1, 3, 4, 5, 6].map(channel => `issue ${channel} 64`));
  const [atOnce, low, byCaller] = [0, 1, 2].map(it => session.channel(it));
  assert.deepEqual([atOnce.room, low.room, byCaller.room], [0, 0, 64]);
  byCaller.issue(40);
  assert.deepEqual([await written(), byCaller.room], [['issue 2 40'], 24]);
  for (const channel of [0, 1, 2]) {
    other.send(channel, bytes(30));
    other.send(channel, bytes(10));
  }
  await put();
  assert.deepEqual(await written(), []);
  await Promise.all([atOnce.receive(), low.receive(), byCaller.receive()]);
  // 24 guarantees are outstanding on the second channel, which is not below its mark.
  assert.deepEqual([await written(), low.room, byCaller.room], [['issue 0 30'], 30, 54]);
  other.send(1, bytes(5));
  await put();
  assert.deepEqual([await written(), low.room], [['issue 1 30'], 0]);
  low.setIssuePolicy('by caller');
  byCaller.setIssuePolicy('at once');
  await low.receive();
  assert.deepEqual([await written(), low.room, byCaller.room], [['issue 2 54'], 10, 0]);
});

test('what the other side gives up is issued anew', async () => {
  const { data, other, written, put } = await begin();
  await written();
  other.absolve(Data, 20);
  await put();
  assert.deepEqual([await written(), data.room], [['issue 1 20'], 0]);
});

test('room of messages that are received while a write is under way is one issue', async () => {
  const there = await begin();
  await there.written();
  for (let k = 0; k < 5; k += 1) {
    there.other.send(Data, bytes(2));
  }
  there.other.issue(Data, 1);
  await there.put();
  const { promise, resolve } = later();
  there.hold = promise;
  await there.data.receive();
  await settled(); // the driver writes its issue
  await Promise.all([1, 2, 3, 4].map(() => there.data.receive()));
  await settled();
  there.hold = undefined;
  resolve();
  assert.deepEqual(await there.written(), ['issue 1 2', 'issue 1 8']);
});

test('nothing but the next write issues room that is freed while a write is under way', async () => {
  const there = await begin();
  await there.written();
  for (let k = 1; k <= 3; k += 1) {
    there.other.send(Data, bytes(k));
  }
  there.other.issue(Overlap, 9);
  await there.put();
  const { promise, resolve } = later();
  there.hold = promise;
  await there.data.receive();
  await settled(); // the driver writes its issue
  const overlap = there.session.channel(Overlap);
  await there.data.receive();
  await overlap.send(bytes(1));
  await there.data.receive();
  const controller = new AbortController();
  const waits = overlap.send(bytes(9), { signal: controller.signal });
  controller.abort();
  await assert.rejects(waits);
  there.other.issue(Overlap, 1);
  await there.put();
  overlap.absolve(1);
  there.hold = undefined;
  resolve();
  assert.deepEqual(await there.written(), ['issue 1 1', 'send 2 1', 'absolve 2 1', 'issue 1 5']);
});

test('a plead bounds what the policy issues, until it is set anew', async () => {
  const { data, other, written, put } = await begin();
  await written();
  data.plead(10);
  assert.deepEqual(await written(), ['plead 1 10']);
  other.honour(Data);
  await put();
  assert.deepEqual([await written(), data.room], [[], 54]);
  other.send(Data, bytes(4));
  await put();
  assert.deepEqual(await written(), ['issue 1 4']);
  data.setIssuePolicy('at once');
  assert.deepEqual([await written(), data.room], [['issue 1 50'], 0]);
  assert.throws(() => data.plead(60), { code: Code.NothingToAsk, number: 60 });
});

test('pleads are honoured at once, also where a send waits', async () => {
  const { data, other, written, put } = await begin();
  other.issue(Data, 50);
  await put();
  await written();
  const waits = data.send(bytes(60));
  other.plead(Data, 20);
  await put();
  assert.deepEqual([await written(), data.held, data.pleaded, await fate(waits)], [['absolve 1 30'], 20, null, null]);
  other.plead(Data, 0);
  await put();
  assert.deepEqual([await written(), data.held], [['absolve 1 20'], 0]);
});

test('pleads are honoured when the caller says so', async () => {
  const { data, other, written, put } = await begin({ plead: ['at once', 'by caller', 'at once', 'at once', 'at once', 'at once', 'at once'] });
  other.issue(Data, 50);
  other.issue(Overlap, 50);
  await put();
  await written();
  assert.deepEqual([data.pleaded, data.honour()], [null, 0]);
  other.plead(Data, 20);
  other.plead(Overlap, 20);
  await put();
  assert.deepEqual([await written(), data.pleaded, data.held], [['absolve 2 30'], 20, 50]);
  assert.equal(data.honour(), 30);
  assert.deepEqual([await written(), data.pleaded, data.held], [['absolve 1 30'], null, 20]);
});

test('guarantees that are given up are no message\'s', async () => {
  const { data, session, other, written, put } = await begin({ slots: 14, issue: 'by caller' });
  other.issue(Data, 50);
  await put();
  assert.throws(() => data.absolve(0), { code: Code.ZeroAmount });
  assert.throws(() => data.absolve(51), { code: Code.NotHeld, number: 50 });
  // No slot is free for the absolve, which counts nevertheless.
  for (let k = 0; k < 7; k += 1) {
    session.channel(Overlap).issue(1);
  }
  data.absolve(20);
  assert.equal(data.held, 30);
  assert.throws(() => data.absolve(31), { code: Code.NotHeld, number: 30 });
  const waits = data.send(bytes(31));
  assert.deepEqual(await written(), [...Array(7).fill('issue 2 1'), 'absolve 1 20']);
  assert.equal(await fate(waits), null);
});

test('limits and a finish stay behind the sends that waited before them', async () => {
  const { data, other, put } = await begin({ version: 2 });
  const first = data.send(bytes(5));
  data.limitSending(20);
  const second = data.send(bytes(15));
  assert.throws(() => data.limitSending(21), { code: Code.LimitRaised, number: 20n });
  await assert.rejects(data.send(bytes(21)), { code: Code.PastSendLimit, number: 20n });
  data.limitSending(8);
  await assert.rejects(data.send(bytes(9)), { code: Code.PastSendLimit, number: 8n });
  const third = data.send(bytes(5));
  data.finish();
  for (const call of [() => data.finish(), () => data.limitSending(0), () => data.absolve(1), () => data.honour()]) {
    assert.throws(call, { code: Code.ChannelFinished });
  }
  await assert.rejects(data.send(bytes(1)), { code: Code.ChannelFinished });
  assert.equal((await Promise.all([first, second, third].map(fate))).every(it => it === null), true);
  other.issue(Data, 25);
  await put();
  await Promise.all([first, second, third]);
});

test('what stands in line goes in its order', async () => {
  const { session, data, other, put, writes } = await begin({ version: 2, issue: 'by caller' });
  await settled();
  writes.length = 0;
  const sends = [data.send(bytes(5))];
  data.limitSending(20);
  sends.push(data.send(bytes(15)));
  data.limitSending(8);
  data.limitSending(5); // replaces the one before, which is the last entry
  sends.push(data.send(bytes(5)));
  data.finish();
  other.issue(Data, 25);
  await put();
  await Promise.all(sends);
  await settled();
  // The limit of 5 is reached by then: 5 of 20 are left.
  const expected = ['send 1 5', 'limit-sending 1 20', 'send 1 15', 'limit-sending 1 5', 'send 1 5', 'finish 1'];
  assert.deepEqual(framesOf(writes, 2), expected);
  assert.equal(session.reason, null);
});

test('a limit goes at once where nothing waits, and so does the next', async () => {
  const { data, written } = await begin();
  await written();
  data.limitSending(20);
  assert.deepEqual(await written(), ['limit-sending 1 20']);
  data.limitSending(10n);
  assert.deepEqual(await written(), ['limit-sending 1 10']);
  assert.throws(() => data.limitSending(11), { code: Code.LimitRaised, number: 10n });
});

test('where a call leaves, a limit behind it goes', async () => {
  const { data, written } = await begin();
  await written();
  const gone = new AbortController();
  const waits = data.send(bytes(5), { signal: gone.signal });
  data.limitSending(3);
  assert.deepEqual(await written(), []);
  gone.abort('enough');
  await assert.rejects(waits, it => it === 'enough');
  assert.deepEqual(await written(), ['limit-sending 1 3']);
});

test('limits on receiving are judged with what is owed', async () => {
  const { data, written } = await begin({ issue: 'by caller' });
  data.limitReceiving(40);
  assert.throws(() => data.limitReceiving(41), { code: Code.LimitRaised, number: 40n });
  assert.throws(() => data.issue(41), { code: Code.PastReceiveLimit, number: 40n });
  assert.throws(() => data.issue(0), { code: Code.ZeroAmount });
  data.issue(30);
  assert.throws(() => data.issue(35), { code: Code.PastReceiveLimit, number: 10n });
  assert.throws(() => data.limitReceiving(2n ** 62n + 1n), { code: Code.BoundTooLarge });
  data.limitReceiving(5n);
  assert.deepEqual(await written(), ['limit-receiving 1 40', 'issue 1 30', 'limit-receiving 1 5']);
  assert.throws(() => data.issue(6), { code: Code.PastReceiveLimit, number: 5n });
});

test('what is asked for while no slot is left is judged with what is owed', async () => {
  const { session, data } = await begin({ slots: 14, issue: 'by caller' });
  for (let k = 0; k < 7; k += 1) {
    session.channel(Overlap).issue(1);
  }
  data.issue(60);
  assert.equal(data.room, 4);
  assert.throws(() => data.issue(5), { code: Code.NoRoom, number: 4 });
  data.limitReceiving(3);
  assert.throws(() => data.issue(4), { code: Code.PastReceiveLimit, number: 3n });
  assert.throws(() => data.limitReceiving(4), { code: Code.LimitRaised, number: 3n });
});

test('policies are judged', async () => {
  const refused = async (config, expected) => {
    const [streams] = pipes();
    await assert.rejects(open(streams, config), expected);
    assert.deepEqual([streams.readable.locked, streams.writable.locked], [false, false]);
  };
  for (const issue of ['sometimes', 5, null, { lowWater: '5' }, { low: 5 }, {}]) {
    await refused({ issue }, TypeError);
  }
  for (const issue of [{ lowWater: 0 }, { lowWater: 65_537 }, Array(6).fill('at once')]) {
    await refused({ issue }, RangeError);
  }
  for (const plead of ['sometimes', { lowWater: 5 }, [...Array(6).fill('at once'), 'never']]) {
    await refused({ plead }, TypeError);
  }
  const { data } = await begin({ issue: { lowWater: 64 } });
  assert.throws(() => data.setIssuePolicy({ lowWater: 65 }), { name: 'RangeError', message: 'the low-water mark must be in 1..=64, got 65' });
  assert.throws(() => data.setIssuePolicy('never'), { name: 'TypeError', message: /'at once' or 'by caller', got 'never'/ });
  data.setIssuePolicy({ lowWater: 64 });
});

test('arguments are judged before anything is done', async () => {
  const { data, written } = await begin({ issue: 'by caller' });
  for (const call of ['issue', 'plead', 'absolve', 'limitSending', 'limitReceiving']) {
    assert.throws(() => data[call]('5'), TypeError);
    assert.throws(() => data[call](-1), RangeError);
    assert.throws(() => data[call](0.5), RangeError);
  }
  assert.deepEqual(await written(), []);
});

test('statistics count messages, their bytes and what calls waited for', async context => {
  // A clock that only the test moves.
  let now = 1000;
  Object.defineProperty(performance, 'now', { value: () => now, configurable: true });
  context.after(() => delete performance.now);
  const there = await begin({ slots: 14 });
  const { session, data, other, put } = there;
  const none = { messagesSent: 0, bytesSent: 0, messagesReceived: 0, bytesReceived: 0, mostBuffered: 0, waitedForGuarantees: 0, waitedForSlots: 0 };
  assert.deepEqual(session.stats(Data), none);
  const first = data.send(bytes(5));
  now += 60;
  assert.equal(session.stats(Data).waitedForGuarantees, 60);
  other.deliver(there.writes.splice(0).reduce((a, b) => Buffer.concat([a, b]), Buffer.alloc(0)));
  other.issue(Data, 30);
  other.send(Data, bytes(20));
  other.send(Data, bytes(10));
  await put();
  await first;
  // The second message has the own slot, so the third waits for a slot.
  const rest = [data.send(bytes(6)), data.send(bytes(7))];
  now += 5;
  await Promise.all(rest);
  await data.receive();
  const { waitedForGuarantees, waitedForSlots, ...counted } = session.stats(Data);
  assert.deepEqual(counted, { messagesSent: 3, bytesSent: 18, messagesReceived: 1, bytesReceived: 20, mostBuffered: 30 });
  assert.deepEqual([waitedForGuarantees, waitedForSlots], [60, 5]);
  now += 60;
  assert.equal(session.stats(Data).waitedForGuarantees, waitedForGuarantees);
  assert.deepEqual(session.stats(Overlap), none);
  session.abort();
  assert.equal(session.stats(Data).messagesSent, 3);
  assert.throws(() => session.stats(7), RangeError);
});

test('a call that waits for a slot is counted so', async () => {
  const there = await alone({ slots: 14 }, { capacities: 1000 });
  there.other.issue(Data, 100);
  there.put();
  await settled();
  // The driver writes the first message, and no more until the test releases it.
  const { promise, resolve } = later();
  there.hold = promise;
  const send = () => there.session.channel(Data).send(bytes(1));
  const sends = [send()];
  await settled();
  sends.push(send(), send());
  await new Promise(resolve => setTimeout(resolve, 60));
  const { waitedForSlots, waitedForGuarantees } = there.session.stats(Data);
  assert.ok(waitedForSlots >= 50 && waitedForGuarantees < 50, `${waitedForSlots} ${waitedForGuarantees}`);
  there.hold = undefined;
  resolve();
  await Promise.all(sends);
});
