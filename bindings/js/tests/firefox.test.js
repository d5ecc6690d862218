// The package in a second browser engine.
import assert from 'node:assert/strict';
import { once } from 'node:events';
import { readFile } from 'node:fs/promises';
import { test } from 'node:test';
import { Channel, fromWebSocket, open } from 'lcmux';
import { inFirefox } from './firefox.js';
import { WebSocketServer } from './relay.js';

test('the rows in Firefox, and a wrong row is seen', async () => {
  const rows = await readFile(new URL('../../rows.txt', import.meta.url), 'utf8');
  const planted = rows.replace('took 6869', 'took 6868');
  const run = async (...texts) => {
    const { load } = await import('/src/index.js');
    const { runRows } = await import('/tests/rows.js');
    const lcmux = await load();
    return texts.map(text => [1, 2 ** 30].map(piece => runRows(lcmux, text, piece)));
  };
  const [right, wrong] = await inFirefox(run, rows, planted);
  const count = pattern => rows.match(pattern).length;
  const expected = { cases: count(/^rings/gm), answers: count(/ => /g), wrong: [] };
  assert.deepEqual(right, [expected, expected]);
  assert.deepEqual(wrong.map(it => it.wrong), Array(2).fill(['B take 1 => took 6868, and not took 6869']));
});

test('a machine without Firefox fails the test, and nothing of it stays', { timeout: 60_000 }, async () => {
  const { PATH } = process.env;
  process.env.PATH = '/nowhere';
  const run = inFirefox(() => 5);
  await assert.rejects(run, /spawn firefox-esr ENOENT/).finally(() => (process.env.PATH = PATH));
  assert.deepEqual(process.getActiveResourcesInfo().filter(it => it === 'TCPServerWrap'), []);
});

test('Firefox and Node exchange 1 MB each way over a WebSocket, by streams', async context => {
  const server = new WebSocketServer({ port: 0, host: '127.0.0.1' });
  await once(server, 'listening');
  context.after(() => server.close());
  const echoed = once(server, 'connection').then(async ([socket]) => {
    const session = await open(await fromWebSocket(socket));
    const data = session.channel(Channel.Data);
    await data.readable.pipeTo(data.writable);
    await session.close();
    return session.stats(Channel.Data).bytesReceived;
  });
  const run = async address => {
    const { Channel, fromWebSocket, open } = await import('/src/index.js');
    const session = await open(await fromWebSocket(new WebSocket(address)), { version: 2 });
    const data = session.channel(Channel.Data);
    const bytes = Uint8Array.from({ length: 1_000_000 }, (_, at) => at ^ (at >> 8));
    const sent = new Blob([bytes]).stream().pipeTo(data.writable);
    let right = 0;
    for await (const message of data) {
      right += message.every((byte, at) => byte === bytes[right + at]) ? message.length : NaN;
    }
    await sent;
    await session[Symbol.asyncDispose]();
    return [right, session.reason.kind];
  };
  const [told, bytes] = await Promise.all([inFirefox(run, `ws://127.0.0.1:${server.address().port}`), echoed]);
  assert.deepEqual([told, bytes], [[1_000_000, 'Local'], 1_000_000]);
});
