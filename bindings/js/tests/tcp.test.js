import assert from 'node:assert/strict';
import { execFile } from 'node:child_process';
import { once } from 'node:events';
import { mkdtemp, rm } from 'node:fs/promises';
import { connect, createServer } from 'node:net';
import { tmpdir } from 'node:os';
import { after, before, test } from 'node:test';
import { connect as connectSecurely, createServer as createSecureServer } from 'node:tls';
import { fileURLToPath } from 'node:url';
import { promisify } from 'node:util';
import { Channel, SessionClosed, open } from 'lcmux';
import { fromSocket } from 'lcmux/node';
import { buildExchange } from './native.js';
import { fate, settled } from './streams.js';

const { Data } = Channel;
const run = promisify(execFile);

let server;
before(async () => {
  server = createServer({ allowHalfOpen: true });
  await once(server.listen(0, '127.0.0.1'), 'listening');
});
after(() => server.close());

const address = () => `127.0.0.1:${server.address().port}`;

async function accepted() {
  const [socket] = await once(server, 'connection');
  return socket;
}

async function bothSockets() {
  const there = accepted();
  const socket = connect({ port: server.address().port, host: '127.0.0.1', allowHalfOpen: true });
  await once(socket, 'connect');
  return [socket, await there];
}

// Message k has the bytes k, k + 1 and so on.
const counted = Uint8Array.from({ length: 1_000_256 }, (_, at) => at);
const message = (k, length) => counted.subarray(k % 256, (k % 256) + length);

async function sendAll(channel, length, count) {
  for (let k = 0; k < count; k += 1) {
    await channel.send(message(k, length));
  }
}

async function takeAll(channel, length, count) {
  for (let k = 0; k < count; k += 1) {
    const body = await channel.receive();
    assert.ok(body !== null && Buffer.compare(message(k, length), body) === 0, `message ${k}`);
  }
}

for (const [mine, theirs, length, count] of [[1, 1, 61_440, 1628], [2, 2, 1_000_000, 100], [1, 2, 61_440, 1628]]) {
  test(`100 MB each way at once over TCP with the crate for Rust, version ${mine} to ${theirs}`, async () => {
    const program = await buildExchange();
    const there = accepted();
    const other = run(program, [address(), theirs, length, count].map(String));
    const session = await open(fromSocket(await there), { version: mine, capacities: 2 ** 22 });
    const channel = session.channel(Data);
    await Promise.all([sendAll(channel, length, count), takeAll(channel, length, count)]);
    await session.close();
    assert.equal(Number((await other).stdout), length * count);
  });
}

test('two sessions over TCP, closed one after the other', async () => {
  const sockets = await bothSockets();
  const [alice, bob] = await Promise.all(sockets.map(socket => open(fromSocket(socket))));
  await alice.channel(Data).send(message(1, 5));
  const closed = alice.close();
  assert.deepEqual(await bob.channel(Data).receive(), message(1, 5));
  assert.equal(await bob.channel(Data).receive(), null);
  await bob.channel(Data).send(message(2, 5));
  await bob.close();
  await closed;
  assert.deepEqual([await alice.channel(Data).receive(), await alice.channel(Data).receive()], [message(2, 5), null]);
  assert.ok(alice.reason.kind === 'Local' && bob.reason.kind === 'Local');
});

for (const [name, kind, lose] of [['destroyed', 'Stopped', socket => socket.destroy()], ['reset', 'Transport', socket => socket.resetAndDestroy()]]) {
  test(`a socket that is ${name} there ends every wait`, async () => {
    const [socket, other] = await bothSockets();
    const session = await open(fromSocket(socket));
    const waits = [session.channel(Data).send(message(1, 5)), session.channel(Data).receive(), session.closed];
    other.write(Uint8Array.of(0x21, 0));
    do {
      await new Promise(resolve => setTimeout(resolve, 20));
    } while (other.bytesRead === 0); // a socket that is closed with bytes unread is reset
    lose(other);
    for (const wait of waits) {
      await assert.rejects(wait, error => error instanceof SessionClosed && error.kind === kind && error === session.reason);
    }
  });
}

/** A connection whose sockets are as Node makes them, without `allowHalfOpen`: the client's, and the server's. */
async function plainSockets(context, serve = createServer, dial = connect, accepts = 'connection', dials = 'connect', how = {}) {
  const plain = serve(how);
  await once(plain.listen(0, '127.0.0.1'), 'listening');
  const accept = once(plain, accepts);
  const socket = dial({ port: plain.address().port, host: '127.0.0.1', ...how });
  const [[other]] = await Promise.all([accept, once(socket, dials)]);
  context.after(() => [socket, other, plain].forEach(it => it.destroy?.() ?? it.close()));
  return [socket, other];
}

// A pre-shared key: no certificate is needed.
const psk = Buffer.alloc(16, 7);
const SECURE = { ciphers: 'PSK', maxVersion: 'TLSv1.2', checkServerIdentity: () => undefined };
const secureSockets = context =>
  plainSockets(
    context,
    how => createSecureServer({ ...how, pskCallback: () => psk }),
    how => connectSecurely({ ...how, pskCallback: () => ({ psk, identity: 'alice' }) }),
    'secureConnection',
    'secureConnect',
    SECURE,
  );

for (const [name, make] of [['TCP', plainSockets], ['TLS', secureSockets]]) {
  test(`all of 1,000,000 bytes arrive over ${name} after the other side closed, though its sockets are not half-open`, async context => {
    const sockets = await make(context);
    assert.deepEqual(sockets.map(it => it.allowHalfOpen), [false, false]);
    // All guarantees are issued before the close, after which none are.
    const [alice, bob] = await Promise.all(sockets.map(socket => open(fromSocket(socket), { capacities: 2 ** 20 })));
    const closed = bob.close();
    assert.equal(await alice.channel(Data).receive(), null);
    const sent = (async () => {
      await sendAll(alice.channel(Data), 1000, 1000);
      await alice.close();
    })();
    let length = 0;
    for await (const body of bob.channel(Data)) {
      assert.equal(Buffer.compare(message(length / 1000, 1000), body), 0);
      length += body.length;
    }
    assert.equal(length, 1_000_000);
    await Promise.all([sent, closed]);
  });
}

test('a socket of which a direction has ended is refused', async context => {
  const refused = (socket, pattern) => assert.throws(() => fromSocket(socket), pattern);
  const [ended, there] = await plainSockets(context);
  ended.allowHalfOpen = true;
  there.end();
  await once(ended.resume(), 'end');
  refused(ended, /the peer has ended its direction/);
  refused(there, /this side has ended its direction/);
  const [destroyed] = await plainSockets(context);
  destroyed.destroy();
  refused(destroyed, /destroyed/);
  const [decoding] = await plainSockets(context);
  refused(decoding.setEncoding('utf8'), /its encoding is utf8/);
});

test('an end that has arrived and was not told yet is told', async context => {
  const [socket, other] = await plainSockets(context);
  other.end(message(1, 5));
  await new Promise(resolve => setTimeout(resolve, 20));
  const reader = fromSocket(socket).readable.getReader();
  assert.deepEqual([await reader.read(), await reader.read()], [{ done: false, value: message(1, 5) }, { done: true, value: undefined }]);
  assert.equal(socket.writable, true);
});

test('a socket that begins to decode fails its streams', async context => {
  const [socket, other] = await plainSockets(context);
  const { readable, writable } = fromSocket(socket);
  socket.setEncoding('latin1');
  other.on('error', () => {}).write(message(1, 5));
  await assert.rejects(readable.getReader().read(), { name: 'TypeError', message: /the data of a socket must be a Uint8Array, got string/ });
  await assert.rejects(writable.getWriter().closed);
  assert.equal(socket.destroyed, true);
});

// How a socket is lost, on either side. The stream never ends in order.
const LOST = {
  'a reset there': (_, other) => other.resetAndDestroy(),
  'a destroy here': socket => socket.destroy(),
  'a destroy here by an error': socket => socket.destroy(new Error('the cable is cut')),
};
for (const [name, lose] of Object.entries(LOST)) {
  for (const written of [0, 5, 2 ** 24]) {
    test(`a stream does not end by ${name}, behind ${written} bytes that were written there`, async context => {
      const [socket, other] = await plainSockets(context);
      const { readable, writable } = fromSocket(socket);
      other.on('error', () => {});
      other.write(new Uint8Array(written));
      await new Promise(resolve => setTimeout(resolve, 20));
      lose(socket, other);
      const reader = readable.getReader();
      await assert.rejects(async () => {
        while (!(await reader.read()).done);
      });
      await assert.rejects(writable.getWriter().closed);
    });
  }
}

for (const written of [5, 2 ** 24]) {
  test(`a session that is aborted does not end in order there, behind ${written} bytes`, async context => {
    const [alice, bob] = await Promise.all((await plainSockets(context)).map(socket => open(fromSocket(socket), { version: 2, capacities: 2 ** 24 })));
    const sends = Array.from({ length: written / 5 > 1 ? 16 : 1 }, () => alice.channel(Data).send(message(1, Math.min(written, 2 ** 20))));
    sends.forEach(it => it.catch(() => {}));
    await sends[0];
    await settled();
    alice.abort(new Error('enough'));
    await assert.rejects(async () => {
      while ((await bob.channel(Data).receive()) !== null);
    }, it => it.kind === 'Transport' && it.cause.code === 'ECONNRESET');
  });
}

test('a session that is aborted over TLS, which has no reset, is cut there', async context => {
  const [alice, bob] = await Promise.all((await secureSockets(context)).map(socket => open(fromSocket(socket))));
  await alice.channel(Data).send(message(1, 5));
  await settled();
  assert.deepEqual(await bob.channel(Data).receive(), message(1, 5));
  await settled();
  alice.abort();
  await assert.rejects(bob.channel(Data).receive(), it => ['Cut', 'Transport'].includes(it.kind));
});

test('a write that the system has not taken is no write that is done, once the socket is destroyed', async context => {
  const [socket, other] = await plainSockets(context);
  other.pause();
  const writer = fromSocket(socket).writable.getWriter();
  const write = writer.write(new Uint8Array(2 ** 25));
  assert.equal(await fate(write), null);
  socket.destroy();
  await assert.rejects(write, /the socket closed/);
});

test('an abort destroys the socket at once, while a write waits and the other direction has ended', async context => {
  const [socket, other] = await plainSockets(context);
  other.on('error', () => {}).end();
  other.pause();
  const { readable, writable } = fromSocket(socket);
  assert.equal((await readable.getReader().read()).done, true);
  const writer = writable.getWriter();
  const write = writer.write(new Uint8Array(2 ** 25));
  assert.equal(await fate(write), null);
  writer.abort(new Error('enough')).catch(() => {});
  write.catch(() => {});
  assert.equal(socket.destroyed, true);
});

test('an abort destroys a Unix socket, which has no reset', async context => {
  const folder = await mkdtemp(`${tmpdir()}/lcmux-`);
  const plain = createServer();
  context.after(() => [plain.close(), rm(folder, { recursive: true })]);
  await once(plain.listen(`${folder}/socket`), 'listening');
  const accepted = once(plain, 'connection');
  const socket = connect(`${folder}/socket`);
  const [[other]] = await Promise.all([accepted, once(socket, 'connect')]);
  const { writable } = fromSocket(socket);
  await writable.abort(new Error('enough'));
  assert.equal(socket.destroyed, true);
  other.destroy();
});

test('a socket is read no faster than its stream', async () => {
  const [socket, other] = await bothSockets();
  const { readable } = fromSocket(socket);
  const gone = new Promise(resolve => other.write(new Uint8Array(2 ** 25), resolve));
  // Until no more bytes are read.
  for (let before = 0; before === 0 || before < socket.bytesRead; ) {
    before = socket.bytesRead;
    await new Promise(resolve => setTimeout(resolve, 300));
  }
  assert.ok(socket.bytesRead < 2 ** 21, `${socket.bytesRead} bytes`);
  let read = 0;
  for (const reader = readable.getReader(); read < 2 ** 25; ) {
    read += (await reader.read()).value.length;
  }
  await gone;
  socket.destroy();
  other.destroy();
});

const example = fileURLToPath(new URL('../examples/tcp.js', import.meta.url));

test('the example prints what it should', async () => {
  const { stdout } = await run(process.execPath, [example]);
  assert.equal(stdout, 'took 1000 messages in order\n');
});

test('the example fails where its peer cannot start', async () => {
  // Node takes the options of the variable before the program: the peer, which has an argument, does not get to it.
  const fails = 'data:text/javascript,process.argv.length > 2 && process.exit(3)';
  const started = run(process.execPath, [example], { env: { ...process.env, NODE_OPTIONS: `--import=${JSON.stringify(fails)}` }, timeout: 60_000 });
  await assert.rejects(started, ({ code, stderr }) => code === 1 && /the peer ended with status 3 before it connected/.test(stderr));
});
