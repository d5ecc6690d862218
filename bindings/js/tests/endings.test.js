// How sessions end. Each cell of the table in docs/reference/sessions.md is checked.
import assert from 'node:assert/strict';
import { readFile } from 'node:fs/promises';
import { test } from 'node:test';
import { CHANNELS, Channel, Code, SessionClosed } from 'lcmux';
import { framesOf } from './frames.js';
import { alone, fate, pipes, settled } from './streams.js';

const { Data, Overlap, Capability } = Channel;
const bytes = length => new Uint8Array(length);
const isClosed = (error, kind) => error instanceof SessionClosed && error.kind === kind;

const page = await readFile(new URL('../../../docs/reference/sessions.md', import.meta.url), 'utf8');

/** Returns the rows of the table after a title, each with its cells. */
function tableOf(title) {
  const lines = page.slice(page.indexOf(title)).split('\n');
  const first = lines.findIndex(it => it.startsWith('|'));
  const rows = lines.slice(first, lines.findIndex((it, at) => at > first && !it.startsWith('|')));
  return rows.filter((_, at) => at !== 1).map(it => it.split('|').slice(1, -1).map(cell => cell.trim()));
}

const broken = new Error('the cable is cut');

/**
 * A session before its end. On Data 5 guarantees are held and two messages have arrived; Overlap is unused; the peer
 * has finished Capability.
 */
async function begin() {
  const there = await alone({ version: 2, issue: 'by caller', plead: 'by caller' }, { version: 2 });
  const { session, other } = there;
  CHANNELS.forEach(it => session.channel(it).issue(9));
  await settled();
  there.get();
  other.issue(Data, 5);
  other.send(Data, bytes(1));
  other.send(Data, bytes(2));
  other.finish(Capability);
  there.put();
  await settled();
  return there;
}

async function end(there) {
  CHANNELS.filter(it => it !== Capability).forEach(it => there.other.finish(it));
  there.put();
  there.comes.close();
  await settled();
}

// The ways into the states that a session reaches alike before and after its own close, each with the kind of its reason.
const FAILURES = {
  cut: [({ comes }) => comes.close(), 'Cut'],
  transport: [({ comes }) => comes.error(broken), 'Transport'],
  'transport, writing': [({ goes }) => goes.error(broken), 'Transport'],
  'a fault': [({ comes }) => comes.enqueue(Uint8Array.of(0xff)), 'Stopped'],
  'an end within a frame': [
    ({ comes }) => {
      comes.enqueue(Uint8Array.of(0x21, 0));
      comes.close();
    },
    'Stopped',
  ],
  'a violation': [({ comes }) => comes.enqueue(Uint8Array.of(0x31, 0, 1, 0, 0)), 'Stopped'],
};

const LATER = ', after its close';

/** Returns the ways, each also after the close of this side. By then its stream is closed, and no write fails. */
function beforeAndAfterClose(ways) {
  const after = reach => async there => {
    there.session.close().catch(() => {});
    await settled();
    await reach(there);
  };
  const later = Object.entries(ways).filter(([name]) => name !== 'transport, writing');
  return { ...ways, ...Object.fromEntries(later.map(([name, [reach, kind]]) => [`${name}${LATER}`, [after(reach), kind]])) };
}

// The states of the columns, each with the kind of its reason, or none.
const STATES = {
  open: { '': [() => {}, null] },
  "after this side's `close`": { '': [({ session }) => void session.close(), null] },
  'the peer closed in order': { '': [end, null] },
  'over, in order': {
    '': [
      async there => {
        there.session.close();
        await settled();
        await end(there);
      },
      'Local',
    ],
  },
  'cut, transport, protocol error': beforeAndAfterClose(FAILURES),
  aborted: beforeAndAfterClose({ abort: [({ session }) => session.abort(broken), 'Aborted'] }),
};

// The calls of the receiver are first.
const controls = channel => [
  () => channel.issue(1),
  () => channel.limitReceiving(5),
  () => channel.plead(0),
  () => channel.limitSending(5),
  () => channel.absolve(1),
  () => channel.honour(),
  () => channel.finish(),
];

// Each call: the calls before the state, and the results of the calls in it.
const CALLS = {
  '`send`, `reserve`: new or waiting': {
    before: ({ session }) => session.channel(Overlap).send(bytes(1)),
    after: ({ session }, waits) => [waits, session.channel(Overlap).send(bytes(1)), session.channel(Data).send(bytes(5))],
  },
  '`recv`, where messages arrived': {
    after: ({ session }) => [session.channel(Data).receive(), session.channel(Data).receive()],
  },
  '`recv`, no message left, the channel is finished': {
    after: ({ session }) => [session.channel(Capability).receive()],
  },
  '`recv`, no message left, the channel is unfinished': {
    before: ({ session }) => session.channel(Overlap).receive(),
    after: ({ session }, waits) => [waits, session.channel(Overlap).receive()],
  },
  '`issue`, `limit`, `plead`, `absolve`, `honour`, `finish`': {
    after: ({ session }) => controls(session.channel(Data)).map(async call => call()),
  },
  '`closed`, and the driver': {
    before: ({ session }) => session.closed,
    after: ({ session }, waits) => [waits, session.closed],
  },
};

const isWaiting = it => it === null;
const isDone = it => it !== null && 'value' in it;
const rejects = kind => it => it !== null && isClosed(it.reason, kind);
const each = judge => fates => fates.every(judge);

// The cell for the results of its calls.
function judgeOf(cell, kind) {
  switch (cell) {
    case '-':
      return each(isWaiting);
    case 'the message':
      return fates => fates.length === 2 && fates.every(({ value }, at) => value.length === at + 1);
    case 'the end':
      return each(it => it?.value === null);
    case 'success':
      return each(it => isDone(it) && it.value === undefined);
    case 'closed here':
      return each(rejects('Local'));
    case 'reason':
    case 'reason, at once':
      return each(rejects(kind));
    case 'aborted':
    case 'aborted, at once':
      return each(rejects('Aborted'));
    default:
      throw new Error(`the table says '${cell}'`);
  }
}

// Sends on a channel without guarantees, and then on a channel with some.
const SENDS = {
  '-': fates => fates.slice(0, 2).every(isWaiting) && isDone(fates[2]),
  '- where guarantees are held, else closed by the peer': fates => fates.slice(0, 2).every(rejects('Remote')) && isDone(fates[2]),
};

// Calls proceed, and those of a receiver are refused if its channel is finished.
const isRefused = it => it?.reason.code === Code.ChannelFinished;
const CONTROLS = {
  open: each(isDone),
  'the peer closed in order': fates => fates.slice(0, 3).every(isRefused) && fates.slice(3).every(isDone),
};

const [[, ...columns], ...rows] = tableOf('### What each call answers');

test('the table of docs/reference/sessions.md has the calls and the states that are tried', () => {
  assert.deepEqual(columns, Object.keys(STATES));
  assert.deepEqual(rows.map(([call]) => call), [...Object.keys(CALLS).slice(0, 1), "a permit's `send`", ...Object.keys(CALLS).slice(1)]);
});

for (const [call, ...cells] of rows.filter(([name]) => name in CALLS)) {
  for (const [at, cell] of cells.entries()) {
    for (const [name, [reach, kind]] of Object.entries(STATES[columns[at]])) {
      if (cell === '') {
        continue; // no such state: a peer that closed in order has finished its channels
      }
      test(`${call}; ${columns[at]}${name && `, by ${name}`}: ${cell}`, async () => {
        const there = await begin();
        const { before = () => {}, after } = CALLS[call];
        const begun = before(there);
        begun?.catch(() => {});
        await reach(there);
        await settled();
        assert.equal(there.session.reason?.kind ?? null, kind);
        const fates = await Promise.all(after(there, begun).map(fate));
        if (name.endsWith(LATER) && call.startsWith('`send`')) {
          assert.ok(isClosed(fates.shift().reason, 'Local'), 'close refuses the calls that wait');
        }
        const own = { '`send`': SENDS[cell], '`issue`': CONTROLS[columns[at]] }[call.split(/[,:]/)[0]];
        const judge = own ?? judgeOf(cell, kind);
        assert.ok(judge(fates), `${JSON.stringify(fates)} ${fates.map(it => it?.reason)}`);
      });
    }
  }
}

// What the table of languages says of JavaScript, each with a check of it.
const HAS = {
  'slots, bytes and order as above': () => 'yes', // scheduling.test.js
  'policies for issuing and pleads': ({ session }) => ('setIssuePolicy' in session.channel(Data) ? 'yes' : 'no'),
  'endings as above': () => 'yes', // the cells above
  'permits, borrowed messages': ({ session }) => ('reserve' in session.channel(Data) ? 'yes' : 'no'),
  'streams of bytes over a channel': ({ session }) => (session.channel(Data).readable instanceof ReadableStream ? 'yes' : 'no'),
  'a bound on one call': async ({ session }) => {
    const stop = new AbortController();
    const waits = session.channel(Data).send(bytes(9), { signal: stop.signal });
    stop.abort();
    return waits.then(() => 'no', error => (error.name === 'AbortError' ? 'by `AbortSignal`' : error));
  },
  'timeouts of the session: idle, keep-alive, grace': async () => {
    const refused = await alone({ idle: 60 }, {}).then(() => 'yes', () => 'no');
    return `${refused}: [what to do instead](../guides/timeouts.md#javascript)`;
  },
  statistics: ({ session }) => (session.stats(Data).messagesSent === 0 ? 'yes' : 'no'),
};

test('the table of languages says what a session has', async () => {
  const [[, , , language], ...languages] = tableOf('## What each language has');
  assert.equal(language, 'JavaScript');
  assert.deepEqual(languages.map(([name]) => name), Object.keys(HAS));
  const there = await begin();
  for (const [name, , , cell] of languages) {
    assert.equal(await HAS[name](there), cell, name);
  }
});

test('the table of reasons names the kinds', () => {
  const [[, , , language], ...reasons] = tableOf('Every other end is a failure');
  assert.match(language, /^JavaScript/);
  const kinds = reasons.map(cells => cells[3].match(/^`(\w+)`/)[1]);
  assert.deepEqual(kinds, ['Local', 'Remote', 'Cut', 'Aborted', 'Transport', 'Stopped']);
});

// How the peer's stream ends, after it has sent a message, and the kind of the reason.
const ENDS = {
  'an end in order': [end, null],
  'an end at a frame boundary': [({ comes }) => comes.close(), 'Cut'],
  'an end within a frame': [
    ({ comes }) => {
      comes.enqueue(Uint8Array.of(0x21, 0));
      comes.close();
    },
    'Stopped',
  ],
  'an end with one channel unfinished': [
    ({ other, put, comes }) => {
      CHANNELS.slice(0, 6).filter(it => it !== Capability).forEach(it => other.finish(it));
      put();
      comes.close();
    },
    'Cut',
  ],
  'a reset': [({ comes }) => comes.error(broken), 'Transport'],
  'an abort of this side': [({ session }) => session.abort(), 'Aborted'],
};

for (const [name, [reach, kind]] of Object.entries(ENDS)) {
  for (const isAfter of [false, true]) {
    test(`${name}, ${isAfter ? 'after' : 'before'} this side's close`, async () => {
      const there = await begin();
      const { session } = there;
      there.writes.length = 0;
      await session.channel(Data).send(bytes(3));
      if (isAfter) {
        session.close();
        await settled();
        assert.deepEqual([there.isClosed, session.reason], [true, null]);
      }
      await reach(there);
      await settled();
      if (!isAfter) {
        session.close();
        await settled();
      }
      const isInOrder = kind === null;
      assert.equal(session.reason.kind, kind ?? 'Local');
      const closed = await fate(session.closed);
      assert.ok(isInOrder ? isDone(closed) : closed.reason === session.reason);
      // Accepted messages are written, and then every channel is finished.
      const frames = ['send 1 3', ...CHANNELS.map(it => `finish ${it}`)];
      const written = framesOf(there.writes, 2);
      assert.deepEqual(written, isInOrder || isAfter ? frames : frames.slice(0, 1));
      const taken = [await fate(session.channel(Data).receive()), await fate(session.channel(Data).receive())];
      assert.ok(kind === 'Aborted' ? taken.every(rejects(kind)) : taken.every(({ value }, at) => value.length === at + 1));
      const last = await fate(session.channel(Data).receive());
      const hasFinished = isInOrder || name === 'an end with one channel unfinished';
      assert.ok(hasFinished ? last.value === null : rejects(kind)(last));
    });
  }
}

test('a session has one reason, the first', async () => {
  const there = await begin();
  there.comes.close();
  await settled();
  there.session.abort(broken);
  there.goes.error(broken);
  there.session.close();
  await settled();
  assert.equal(there.session.reason.kind, 'Cut');
});

for (const version of [1, 2]) {
  test(`a close finishes each channel that is not, in version ${version}`, async () => {
    const there = await alone({ version, issue: 'by caller' });
    there.session.channel(Data).finish();
    await settled();
    there.writes.length = 0;
    there.session.close();
    await settled();
    const others = CHANNELS.filter(it => it !== Data);
    assert.deepEqual(framesOf(there.writes, version), others.map(it => (version === 1 ? `limit-sending ${it} 0` : `finish ${it}`)));
    assert.equal(there.isClosed, true);
  });

  test(`limits and finishes that waited in line go by a close, and what is pending without a slot, in version ${version}`, async () => {
    const there = await alone({ version, issue: 'by caller', slots: 14 });
    const { session } = there;
    await settled();
    there.writes.length = 0;
    const data = session.channel(Data);
    const waits = data.send(bytes(1));
    data.limitSending(7);
    for (let k = 0; k < 8; k += 1) {
      session.channel(Overlap).issue(1);
    }
    session.close();
    await assert.rejects(waits, it => isClosed(it, 'Local'));
    await settled();
    const ends = CHANNELS.map(it => (version === 1 ? `limit-sending ${it} 0` : `finish ${it}`));
    const frames = framesOf(there.writes, version);
    assert.deepEqual(frames.slice(0, 8), [...Array(7).fill('issue 2 1'), 'issue 2 1']);
    assert.deepEqual(frames.filter(it => !it.startsWith('issue')).sort(), [...ends, ...(version === 1 ? [] : ['limit-sending 1 7'])].sort());
    assert.equal(there.isClosed, true);
  });

  test(`a limit that is used up is an end of its channel, in version ${version}`, async () => {
    const there = await alone({ version }, { version });
    const { session, other, put, get, comes } = there;
    await settled();
    get();
    other.limitSending(Data, 3);
    other.send(Data, bytes(3));
    CHANNELS.filter(it => it !== Data).forEach(it => other.limitSending(it, 0));
    put();
    comes.close();
    await settled();
    assert.equal(session.reason, null);
    assert.deepEqual([await session.channel(Data).receive(), await session.channel(Data).receive()], [bytes(3), null]);
    await session.close();
    assert.equal(session.reason.kind, 'Local');
  });
}

test('nothing is issued after a close, and what was asked for before is', async () => {
  const { session, other, put, get, writes } = await alone({ version: 2, capacities: 8 }, { version: 2 });
  await settled();
  get();
  session.close();
  await settled();
  get();
  other.send(Data, bytes(5));
  put();
  await session.channel(Data).receive();
  await settled();
  assert.deepEqual(writes, []);
  assert.equal(session.channel(Data).room, 5);
});

test('room that was freed before a close is issued before it', async () => {
  const there = await alone({ version: 2, capacities: 8 }, { version: 2 });
  const { session, other, put, get, writes } = there;
  await settled();
  get();
  other.issue(Data, 1);
  other.send(Data, bytes(5));
  put();
  await settled();
  let resume;
  there.hold = new Promise(resolve => (resume = resolve));
  await session.channel(Data).send(bytes(1));
  await settled(); // the driver writes it
  await session.channel(Data).receive();
  session.close();
  there.hold = undefined;
  resume();
  await settled();
  assert.deepEqual(framesOf(writes, 2), ['send 1 1', 'issue 1 5', ...CHANNELS.map(it => `finish ${it}`)]);
});

test('a plead that comes behind a close is not honoured', async () => {
  const there = await alone({ version: 1, issue: 'by caller' });
  const { session, other, put } = there;
  other.issue(Data, 9);
  put();
  await settled();
  let resume;
  there.hold = new Promise(resolve => (resume = resolve));
  await session.channel(Data).send(bytes(1));
  await settled(); // the driver writes it
  session.close();
  other.plead(Data, 0);
  put();
  await settled();
  there.hold = undefined;
  resume();
  await settled();
  assert.deepEqual(framesOf(there.writes), ['send 1 1', ...CHANNELS.map(it => `limit-sending ${it} 0`)]);
});

test('two sessions that are closed at once end in order, and messages on their way are received', async () => {
  const { load } = await import('lcmux');
  const lcmux = await load();
  for (const [first, second] of [[1, 1], [1, 2], [2, 2]]) {
    const [alice, bob] = pipes().map((streams, at) => lcmux.open(streams, { version: [first, second][at] }));
    await settled();
    await Promise.all(CHANNELS.flatMap(it => [alice.channel(it).send(bytes(it + 1)), bob.channel(it).send(bytes(it + 1))]));
    await Promise.all([alice.close(), bob.close()]);
    for (const session of [alice, bob]) {
      assert.equal(session.reason.kind, 'Local');
      for (const channel of CHANNELS) {
        const it = session.channel(channel);
        assert.deepEqual([await it.receive(), await it.receive()], [bytes(channel + 1), null]);
      }
    }
  }
});

test('what a delivery brings before it breaks the rules has arrived', async () => {
  const { session, comes } = await begin();
  const [sent, waits] = [session.channel(Overlap).send(bytes(3)), session.channel(Overlap).send(bytes(1))];
  // An issue of 3 bytes on Overlap, a message of 4 there, and then no frame.
  comes.enqueue(Uint8Array.of(0x22, 0, 0, 0, 3, 0x12, 0, 0, 0, 4, 1, 2, 3, 4, 0xff));
  await sent;
  await assert.rejects(waits, it => isClosed(it, 'Stopped'));
  assert.deepEqual([session.stats(Overlap).mostBuffered, await session.channel(Overlap).receive()], [4, Uint8Array.of(1, 2, 3, 4)]);
});

test('where the other side broke the framing, this side is told how', async () => {
  const { session, comes } = await begin();
  comes.enqueue(Uint8Array.of(0xff));
  await assert.rejects(session.closed, it => isClosed(it, 'Stopped') && it.cause.code === Code.BadTag && it.cause.isStop);
});
