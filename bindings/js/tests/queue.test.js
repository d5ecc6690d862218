// The cost of a waiting call is constant, however many calls wait: counted in steps.
// The first import counts how often the blocks of the later ones run.
import { stepsOf } from './steps.js';
import assert from 'node:assert/strict';
import { test } from 'node:test';
import { CHANNELS, Channel } from 'lcmux';
import { List } from '../src/list.js';
import { alone, settled } from './streams.js';

const { Data } = Channel;
const one = Uint8Array.of(0x61);
const times = (count, make) => Array.from({ length: count }, (_, at) => make(at));

/** A signal whose listeners cost as much as those of a real one: each new listener is compared with all others. */
class CountedSignal {
  static compared = 0;
  #listeners = new Set();
  reason;

  throwIfAborted() {}

  addEventListener(_, listener) {
    CountedSignal.compared += this.#listeners.size;
    this.#listeners.add(listener);
  }

  removeEventListener(_, listener) {
    this.#listeners.delete(listener);
  }

  get count() {
    return this.#listeners.size;
  }

  abort(reason) {
    this.reason = reason;
    const all = [...this.#listeners];
    this.#listeners.clear();
    all.forEach(listener => listener());
  }
}

// Each makes a session in which no message can be sent yet, and returns the function to be counted, for this many waits.
const COUNTED = {
  'sends that are not awaited': async count => {
    const { session, other, put } = await alone({}, { capacities: 2 ** 24 });
    return async () => {
      const sends = times(count, () => session.channel(Data).send(one));
      other.issue(Data, count);
      put();
      await Promise.all(sends);
    };
  },
  'receives that are not awaited': async count => {
    const { session, other, put, get } = await alone({ capacities: 2 ** 20 }, { slots: 60_000 });
    await settled();
    get();
    return async () => {
      const messages = times(count, () => session.channel(Data).receive());
      times(count, () => other.send(Data, one));
      put();
      await Promise.all(messages);
    };
  },
  'sends that leave from the last to the first': async count => {
    const { session } = await alone();
    return async () => {
      const given = times(count, () => new AbortController());
      const sends = given.map(({ signal }) => session.channel(Data).send(one, { signal }));
      given.reverse().forEach(it => it.abort());
      await Promise.allSettled(sends);
    };
  },
  'sends of one signal, which all leave': async count => {
    const { session } = await alone();
    return async () => {
      const signal = new CountedSignal();
      const sends = times(count, () => session.channel(Data).send(one, { signal }));
      signal.abort('enough');
      assert.ok((await Promise.allSettled(sends)).every(({ reason }) => reason === 'enough'));
    };
  },
  'sends between limits': async count => {
    const { session, other, put } = await alone({}, { capacities: 2 ** 24 });
    return async () => {
      const channel = session.channel(Data);
      const sends = times(count, at => {
        channel.limitSending(2 ** 20 - at);
        return channel.send(one);
      });
      other.issue(Data, count);
      put();
      await Promise.all(sends);
    };
  },
  'sends on channels that all wait': async count => {
    const { session } = await alone();
    return async () => {
      const sends = times(count, at => session.channel(at % CHANNELS.length).send(one));
      session.close();
      assert.ok((await Promise.allSettled(sends)).every(({ reason }) => reason.kind === 'Local'));
    };
  },
  'sends that fail with their session': async count => {
    const { session } = await alone();
    return async () => {
      const sends = times(count, () => session.channel(Data).send(one));
      session.abort('enough');
      assert.ok((await Promise.allSettled(sends)).every(({ reason }) => reason.cause === 'enough'));
    };
  },
  'messages that are received once the session is over': async count => {
    const { session, other, put, get, comes } = await alone({ capacities: 2 ** 20 }, { slots: 60_000 });
    await settled();
    get();
    times(count, () => other.send(Data, one));
    put();
    await settled();
    return async () => {
      comes.error(new Error('enough'));
      await settled();
      for (let k = 0; k < count; k += 1) {
        assert.equal((await session.channel(Data).receive()).length, 1);
      }
    };
  },
};

for (const [name, prepare] of Object.entries(COUNTED)) {
  test(`the cost of each does not grow with their number: ${name}`, async () => {
    const costs = [];
    for (const count of [300, 3000]) {
      CountedSignal.compared = 0;
      const steps = await stepsOf(await prepare(count));
      costs.push((steps + CountedSignal.compared) / count);
    }
    const [few, many] = costs;
    assert.ok(few > 3, `${few} steps are too few to be all`);
    assert.ok(many < few * 1.5, `${few} steps each, and then ${many}`);
  });
}

test('what is counted is each turn of a loop, and each element that an array looks at', async () => {
  const loop = count => {
    for (let k = 0; k < count; k += 1);
  };
  const elements = times(1000, at => at);
  for (const run of [() => loop(1000), () => elements.indexOf(-1)]) {
    const steps = await stepsOf(run, import.meta.url);
    assert.ok(steps >= 1000, `${steps} steps`);
  }
});

test('a signal is let go once nothing waits by it', async () => {
  const { session, other, put } = await alone();
  const signal = new CountedSignal();
  const sends = times(3, () => session.channel(Data).send(one, { signal }));
  assert.equal(signal.count, 1);
  other.issue(Data, 2);
  put();
  await Promise.all(sends.slice(0, 2));
  assert.equal(signal.count, 1);
  other.issue(Data, 1);
  put();
  await sends[2];
  assert.equal(signal.count, 0);
  const late = session.channel(Data).send(one, { signal });
  assert.equal(signal.count, 1);
  session.abort('over');
  await assert.rejects(late, it => it.cause === 'over');
  assert.equal(signal.count, 0);
});

test('a list is first in, first out, and lets go wherever a node stands', () => {
  const list = new List();
  assert.deepEqual([list.first, list.shift()], [undefined, undefined]);
  const nodes = times(6, at => list.push(at));
  [0, 3, 5].forEach(at => list.remove(nodes[at]));
  assert.deepEqual([list.first, list.shift(), list.shift(), list.first], [1, 1, 2, 4]);
  list.push(7);
  assert.deepEqual([list.shift(), list.shift(), list.shift(), list.first], [4, 7, undefined, undefined]);
  list.push(8);
  assert.equal(list.shift(), 8);
});
