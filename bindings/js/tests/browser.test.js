import assert from 'node:assert/strict';
import { once } from 'node:events';
import { readFile } from 'node:fs/promises';
import { after, before, test } from 'node:test';
import { Chromium } from './chromium.js';
import { WebSocket, startRelay } from './relay.js';

let relay;
let chromium;
before(async () => {
  [relay, chromium] = await Promise.all([startRelay(), Chromium.start()]);
});
after(() => Promise.all([relay.stop(), chromium.stop()]));

/** A function that runs in a tab, whose words are data. */
const call = (tab, run, ...words) => tab.evaluate(`(${run})(...${JSON.stringify(words)})`);

test('the rows in Chromium, and a wrong row is seen', async () => {
  const tab = await chromium.tab(new URL('/examples/none', relay.page).href);
  const rows = await readFile(new URL('../../rows.txt', import.meta.url), 'utf8');
  const told = (text, piece) =>
    call(
      tab,
      async (text, piece) => {
        const { load } = await import('/src/index.js');
        const { runRows } = await import('/tests/rows.js');
        return runRows(await load(), text, piece);
      },
      text,
      piece,
    );
  const count = pattern => rows.match(pattern).length;
  const right = { cases: count(/^rings/gm), answers: count(/ => /g), wrong: [] };
  assert.deepEqual([await told(rows, 1), await told(rows, 2 ** 30)], [right, right]);
  const planted = rows.replace('took 6869', 'took 6868');
  assert.deepEqual((await told(planted, 1)).wrong, ['B take 1 => took 6868, and not took 6869']);
});

const state = tab => call(tab, () => document.getElementById('state').textContent);
const write = (tab, text) =>
  call(
    tab,
    text => {
      document.getElementById('line').value = text;
      document.querySelector('button').click();
    },
    text,
  );

// Waits until there are this many lines.
const heard = (tab, count) =>
  call(
    tab,
    async count => {
      const lines = () => [...document.querySelectorAll('#heard li')].map(it => it.textContent);
      while (lines().length < count) {
        await new Promise(resolve => setTimeout(resolve, 10));
      }
      return lines();
    },
    count,
  );

const becomes = (tab, pattern) =>
  call(
    tab,
    async pattern => {
      while (!new RegExp(pattern).test(document.getElementById('state').textContent)) {
        await new Promise(resolve => setTimeout(resolve, 10));
      }
      return document.getElementById('state').textContent;
    },
    pattern,
  );

test('two tabs talk over the relay', async () => {
  const [first, second] = [await chromium.tab(relay.page), await chromium.tab(relay.page)];
  await Promise.all([becomes(first, '^open$'), becomes(second, '^open$')]);
  for (const text of ['hello', 'größer', '<b>']) {
    await write(first, text);
  }
  await write(second, 'back');
  assert.deepEqual([await heard(second, 3), await heard(first, 1)], [['hello', 'größer', '<b>'], ['back']]);
  assert.equal(await state(first), 'open');
  await second.close();
  assert.match(await becomes(first, '^lost'), /^lost: the transport failed: the WebSocket closed/);
});

test('10 MB each way at once between two tabs', async () => {
  const tabs = [await chromium.tab(new URL('/none', relay.page).href), await chromium.tab(new URL('/none', relay.page).href)];
  const exchange = async (address, length, count) => {
    const { Channel, fromWebSocket, open } = await import('/src/index.js');
    const session = await open(await fromWebSocket(new WebSocket(address)), { version: 2, capacities: 2 ** 20 });
    const data = session.channel(Channel.Data);
    const send = async () => {
      for (let k = 0; k < count; k += 1) {
        await data.send(new Uint8Array(length).fill(k));
      }
      data.finish();
    };
    const take = async () => {
      let right = 0;
      for await (const body of data) {
        right += body.length === length && body.every(byte => byte === right);
      }
      return right;
    };
    const [, right] = await Promise.all([send(), take()]);
    await session.close();
    return right;
  };
  assert.deepEqual(await Promise.all(tabs.map(tab => call(tab, exchange, relay.socket, 100_000, 100))), [100, 100]);
});

test('a text fails the session of a tab and closes its WebSocket, without an error that nobody catches', async () => {
  const other = new WebSocket(relay.socket);
  await once(other, 'open');
  // The relay keeps the bytes for the tab.
  ['text', Uint8Array.of(1), new Uint8Array(0)].forEach(it => other.send(it));
  const tab = await chromium.tab(new URL('/none', relay.page).href);
  const lose = async address => {
    const { fromWebSocket, open } = await import('/src/index.js');
    const uncaught = [];
    addEventListener('error', ({ message }) => uncaught.push(message));
    addEventListener('unhandledrejection', ({ reason }) => uncaught.push(String(reason)));
    const socket = new WebSocket(address);
    const closed = new Promise(resolve => socket.addEventListener('close', ({ code }) => resolve(code)));
    const session = await open(await fromWebSocket(socket));
    const reason = await session.closed.catch(error => String(error));
    return { reason, code: await closed, uncaught };
  };
  const reason = 'SessionClosed: the transport failed: a WebSocket message must be bytes, got string';
  assert.deepEqual(await call(tab, lose, relay.socket), { reason, code: 4003, uncaught: [] });
});
