// Six channels are stuck, and a seventh carries a thousand messages, by a random schedule over pipes that cut the streams
// anywhere. The stuck channels never block the seventh, and all frames keep the rules.
import assert from 'node:assert/strict';
import { test } from 'node:test';
import { CHANNELS, Channel, load } from 'lcmux';

const { Data } = Channel;
const MESSAGES = 1000;
const lcmux = await load();

/** Numbers that depend on the seed alone. */
function randomOf(seed) {
  let state = seed;
  return most => {
    state = (Math.imul(state, 1_664_525) + 1_013_904_223) >>> 0;
    return Math.floor((state / 2 ** 32) * most);
  };
}

/** A pipe that cuts its bytes into chunks, and occasionally makes the writer wait. */
function cutPipe(random) {
  let controller;
  const readable = new ReadableStream({ start: it => void (controller = it) });
  const pause = async () => {
    for (let turns = random(4); turns > 0; turns -= 1) {
      await new Promise(resolve => setImmediate(resolve));
    }
  };
  const writable = new WritableStream({
    async write(bytes) {
      for (let at = 0; at < bytes.length; ) {
        const next = at + 1 + random(random(2) === 0 ? 20 : 5000);
        controller.enqueue(bytes.slice(at, next));
        at = next;
      }
      await pause();
    },
    close: () => controller.close(),
    abort: reason => controller.error(reason),
  });
  return { readable, writable };
}

function pairOf(random, config) {
  const [there, back] = [cutPipe(random), cutPipe(random)];
  const alice = lcmux.open({ readable: back.readable, writable: there.writable }, config);
  const bob = lcmux.open({ readable: there.readable, writable: back.writable }, { ...config, plead: 'at once' });
  return [alice, bob];
}

const messageOf = (k, random) => {
  const body = new Uint8Array(3 + random(200)).fill(k);
  body.set([k >> 16, k >> 8, k]);
  return body;
};

// How the six are stuck.
const STUCK = {
  // Nobody receives, so guarantees run out, and many sends wait.
  'by sends that wait for guarantees': (alice, random, others) => {
    others.forEach(it => Array.from({ length: 50 }, () => alice.channel(it).send(new Uint8Array(200 + random(100)))).forEach(sent => sent.catch(() => {})));
  },
  // No guarantees are ever issued.
  'without guarantees': (alice, _, others) => {
    others.forEach(it => alice.channel(it).send(new Uint8Array(1)).catch(() => {}));
  },
  // Limits, absolves and a finish follow waiting sends.
  'by what stands in line': (alice, _, others) => {
    for (const it of others) {
      const channel = alice.channel(it);
      for (let k = 0; k < 20; k += 1) {
        channel.send(new Uint8Array(300)).catch(() => {});
        channel.limitSending(100_000 - k);
      }
      channel.finish();
    }
  },
};

for (const [name, stick] of Object.entries(STUCK)) {
  for (const seed of [1, 2, 3, 4]) {
    test(`six channels that are stuck ${name} hold up no seventh, seed ${seed}`, async () => {
      const random = randomOf(seed * 7919);
      const slots = [14, 15, 20, 64][seed - 1];
      const free = CHANNELS[random(7)];
      const others = CHANNELS.filter(it => it !== free);
      const issue = CHANNELS.map(it => (name === 'without guarantees' && it !== free ? 'by caller' : 'at once'));
      const [alice, bob] = pairOf(random, { version: 1 + random(2), slots, capacities: 512, issue });
      stick(alice, random, others);
      const bodies = Array.from({ length: MESSAGES }, (_, k) => messageOf(k, random));
      const sent = (async () => {
        for (const [k, body] of bodies.entries()) {
          const done = alice.channel(free).send(body);
          if (k % 3 !== 0 || random(2) === 0) {
            await done;
          }
        }
        alice.channel(free).finish();
      })();
      let next = 0;
      for await (const message of bob.channel(free)) {
        assert.deepEqual(message, bodies[next]);
        next += 1;
      }
      await sent;
      assert.equal(next, MESSAGES);
      assert.deepEqual([alice.stats(free).messagesSent, bob.stats(free).messagesReceived], [MESSAGES, MESSAGES]);
      assert.equal(alice.reason, null);
      await Promise.all([alice.close(), bob.close()]);
      assert.deepEqual([alice.reason.kind, bob.reason.kind], ['Local', 'Local']);
      // Accepted messages of the other channels have arrived, and then these end.
      for (const it of others) {
        let count = 0;
        for await (const message of bob.channel(it)) {
          count += message.length > 0 ? 1 : 0;
        }
        assert.equal(count, alice.stats(it).messagesSent);
      }
    });
  }
}

test('all channels go on at once by a random schedule, with pleads, absolves and all policies', async () => {
  for (const seed of [5, 6, 7]) {
    const random = randomOf(seed * 104_729);
    const policy = () => ['at once', { lowWater: 300 }, 'at once'][random(3)];
    const [alice, bob] = pairOf(random, { version: 2, slots: 14 + random(30), capacities: 600, issue: CHANNELS.map(policy) });
    const one = async (from, to, channel) => {
      const bodies = Array.from({ length: 200 }, (_, k) => messageOf(k, random));
      const receive = async () => {
        let next = 0;
        for await (const message of to.channel(channel)) {
          assert.deepEqual(message, bodies[next]);
          next += 1;
          if (random(20) === 0) {
            to.channel(channel).setIssuePolicy(random(2) === 0 ? 'at once' : { lowWater: 300 });
          }
          if (random(20) === 0) {
            try {
              to.channel(channel).plead(300 + random(200));
            } catch (error) {
              assert.ok(['NothingToAsk', 'ChannelFinished'].includes(error.kind), error);
            }
          }
        }
        assert.equal(next, 200);
      };
      const send = async () => {
        for (const body of bodies) {
          const { held } = from.channel(channel);
          if (random(20) === 0 && held > 0) {
            from.channel(channel).absolve(1 + random(held));
          }
          await from.channel(channel).send(body);
        }
        from.channel(channel).finish();
      };
      await Promise.all([send(), receive()]);
    };
    await Promise.all(CHANNELS.flatMap(it => [one(alice, bob, it), one(bob, alice, it)]));
    await Promise.all([alice.close(), bob.close()]);
    assert.deepEqual([alice.reason.kind, bob.reason.kind], ['Local', 'Local']);
  }
});
