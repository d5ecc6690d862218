import assert from 'node:assert/strict';
import { getEventListeners, once } from 'node:events';
import { createServer } from 'node:net';
import { after, before, test } from 'node:test';
import { runInNewContext } from 'node:vm';
import { Channel, SessionClosed, fromWebSocket, open } from 'lcmux';
import { WebSocket, WebSocketServer, startRelay } from './relay.js';
import { fate } from './streams.js';

const { Data, Overlap } = Channel;
const bytes = (length, mark) => new Uint8Array(length).fill(mark);

let relay;
before(async () => (relay = await startRelay()));
after(() => relay.stop());

async function sessionsOver(config) {
  const sockets = [new WebSocket(relay.socket), new WebSocket(relay.socket)];
  const sessions = await Promise.all(sockets.map(async socket => open(await fromWebSocket(socket), config)));
  return { sockets, sessions };
}

for (const version of [1, 2]) {
  test(`10 MB each way at once over a relay, version ${version}`, async () => {
    const { sockets, sessions } = await sessionsOver({ version, capacities: 2 ** 20 });
    const [length, count] = [50_000, 200];
    const send = async session => {
      for (let k = 0; k < count; k += 1) {
        await session.channel(Data).send(bytes(length, k));
      }
      session.channel(Data).finish();
    };
    const take = async session => {
      let k = 0;
      for await (const body of session.channel(Data)) {
        assert.ok(body.length === length && body.every(byte => byte === k), `message ${k}`);
        k += 1;
      }
      assert.equal(k, count);
    };
    await Promise.all(sessions.flatMap(session => [send(session), take(session)]));
    await Promise.all(sessions.map(session => session.close()));
    await Promise.all(sockets.filter(it => it.readyState !== it.CLOSED).map(socket => once(socket, 'close')));
  });
}

test('one side closes, and the other sends on', async () => {
  const { sessions: [alice, bob] } = await sessionsOver();
  await alice.channel(Data).send(bytes(3, 1));
  const closed = alice.close();
  assert.deepEqual([await bob.channel(Data).receive(), await bob.channel(Data).receive()], [bytes(3, 1), null]);
  await bob.channel(Overlap).send(bytes(3, 2));
  await bob.close();
  await closed;
  assert.deepEqual([await alice.channel(Overlap).receive(), await alice.channel(Overlap).receive()], [bytes(3, 2), null]);
  assert.ok(alice.reason instanceof SessionClosed && bob.reason instanceof SessionClosed);
});

for (const [name, lose] of [['closed', socket => socket.close()], ['cut', socket => socket.terminate()], ['a text', socket => socket.send('text')]]) {
  test(`a WebSocket that is lost ends every wait: ${name}`, async () => {
    const { sockets, sessions: [session, other] } = await sessionsOver();
    await session.channel(Data).send(bytes(60_000, 1));
    const waits = [session.channel(Data).send(bytes(60_000, 2)), session.channel(Data).receive(), session.closed];
    other.closed.catch(() => {});
    await session.channel(Overlap).send(bytes(1, 1));
    await other.channel(Overlap).receive();
    lose(sockets[1]);
    for (const wait of waits) {
      await assert.rejects(wait, error => error === session.reason && /WebSocket/.test(error.message));
    }
  });
}

/** A connection without a relay: the socket of the server and that of the client, in this order. */
async function bothSockets(context) {
  const server = new WebSocketServer({ port: 0, host: '127.0.0.1' });
  await once(server, 'listening');
  context.after(() => server.close());
  const accepted = once(server, 'connection');
  const client = new WebSocket(`ws://127.0.0.1:${server.address().port}`);
  const [[socket]] = await Promise.all([accepted, once(client, 'open')]);
  return [socket, client];
}

for (const side of ['a server', 'a client']) {
  for (const [name, next] of [['bytes', bytes(3, 1)], ['an empty message', new Uint8Array(0)], ['a text again', 'text']]) {
    test(`${side} that receives a text and then ${name} fails its streams and closes`, async context => {
      const sockets = await bothSockets(context);
      const [socket, other] = side === 'a server' ? sockets : sockets.reverse();
      const { readable, writable } = await fromWebSocket(socket);
      const [closed, closedThere] = [once(socket, 'close'), once(other, 'close')];
      // The messages of one TCP segment are reported at once, without a turn of the event loop in between.
      other._socket.cork();
      [bytes(2, 7), 'text', next].forEach(it => other.send(it));
      other._socket.uncork();
      const reader = readable.getReader();
      assert.deepEqual((await reader.read()).value, bytes(2, 7));
      const isReason = { name: 'TypeError', message: 'a WebSocket message must be bytes, got string' };
      await assert.rejects(reader.read(), isReason);
      await assert.rejects(writable.getWriter().closed, isReason);
      assert.deepEqual([(await closedThere)[0], (await closed)[0]], [1003, 1003]);
    });
  }
}

test('a server goes on with its other clients, whatever some of them send', { timeout: 120_000 }, async context => {
  const server = new WebSocketServer({ port: 0, host: '127.0.0.1' });
  await once(server, 'listening');
  context.after(() => server.close());
  const echo = async socket => {
    const session = await open(await fromWebSocket(socket));
    for await (const message of session.channel(Data)) {
      await session.channel(Data).send(message);
    }
    await session.close();
  };
  const served = [];
  server.on('connection', socket => served.push(echo(socket).then(() => 'in order', () => 'lost')));
  const address = `ws://127.0.0.1:${server.address().port}`;
  const BAD = [
    socket => ['text', bytes(1, 1), new Uint8Array(0)].forEach(it => socket.send(it)),
    socket => [bytes(3, 0xff), 'text', bytes(3, 0xff)].forEach(it => socket.send(it)),
    socket => [new Uint8Array(0), bytes(1, 1), 'text', new Uint8Array(0)].forEach(it => socket.send(it)),
    socket => socket._socket.write(bytes(64, 0xff)),
    socket => socket._socket.resetAndDestroy(),
    socket => socket.terminate(),
    socket => socket.close(),
  ];
  const bad = Array.from({ length: 28 }, async (_, k) => {
    const socket = new WebSocket(address);
    socket.on('error', () => {});
    await once(socket, 'open');
    BAD[k % BAD.length](socket);
    await once(socket, 'close');
  });
  const good = Array.from({ length: 10 }, async (_, k) => {
    const session = await open(await fromWebSocket(new WebSocket(address)));
    for (let turn = 0; turn < 20; turn += 1) {
      await session.channel(Data).send(bytes(100, k));
      assert.deepEqual(await session.channel(Data).receive(), bytes(100, k));
    }
    session.channel(Data).finish();
    await session.close();
  });
  await Promise.all([...good, ...bad]);
  // The bad streams that sent an end first had finished no channel.
  const all = await Promise.all(served);
  assert.deepEqual(['in order', 'lost'].map(how => all.filter(it => it === how).length), [10, 28]);
});

/** A WebSocket that buffers bytes until the test releases them. */
class Stuck extends EventTarget {
  readyState = 1;
  bufferedAmount = 0;
  sent = [];

  send(message) {
    this.sent.push(message.slice());
    this.bufferedAmount += message.length;
  }

  // As in a page, which may use few codes.
  close(code = 1005) {
    if (code !== 1005 && code !== 1000 && !(code >= 3000 && code <= 4999)) {
      throw new Error(`the code ${code} is none for a page`);
    }
    this.readyState = 3;
    this.code = code;
    this.dispatchEvent(Object.assign(new Event('close'), { code, reason: '' }));
  }

  receive(data) {
    this.dispatchEvent(Object.assign(new Event('message'), { data }));
  }
}

for (const data of ['text', '', { size: 3 }, bytes(3, 1), null]) {
  test(`a page closes by a code that it may name, where it receives ${data === null ? data : data.constructor.name}`, async () => {
    const socket = new Stuck();
    const { readable, writable } = await fromWebSocket(socket);
    socket.receive(data);
    socket.receive(new ArrayBuffer(3));
    socket.receive(new ArrayBuffer(0));
    assert.deepEqual([socket.readyState, socket.code], [3, 4003]);
    const isReason = { name: 'TypeError', message: /^a WebSocket message must be bytes/ };
    await assert.rejects(readable.getReader().read(), isReason);
    await assert.rejects(writable.getWriter().write(bytes(1, 1)), isReason);
    assert.deepEqual(socket.sent, []);
  });
}

test('an ArrayBuffer of another realm is bytes', async () => {
  const socket = new Stuck();
  const { readable } = await fromWebSocket(socket);
  socket.receive(runInNewContext('Uint8Array.of(1, 2).buffer'));
  assert.deepEqual((await readable.getReader().read()).value, Uint8Array.of(1, 2));
});

for (const [name, state] of [['closing', 2], ['closed', 3]]) {
  for (const call of ['write', 'close']) {
    test(`a ${call} while the WebSocket is ${name} fails, since its bytes would be dropped`, async () => {
      const socket = new Stuck();
      const { writable } = await fromWebSocket(socket);
      socket.readyState = state;
      await assert.rejects(writable.getWriter()[call](bytes(1, 1)), /the WebSocket is closing/);
      assert.deepEqual(socket.sent, []);
    });
  }
}

test('a send is an error where the WebSocket closes meanwhile', async context => {
  const sockets = await bothSockets(context);
  const [alice, bob] = await Promise.all(sockets.map(async socket => open(await fromWebSocket(socket))));
  bob.closed.catch(() => {});
  await alice.channel(Data).send(bytes(1, 1));
  await bob.channel(Data).receive();
  sockets[0].close();
  // The send has its slot before the WebSocket is found closing; the session then reports it.
  await alice.channel(Data).send(bytes(1, 2));
  await assert.rejects(alice.closed, /the WebSocket is closing/);
  await assert.rejects(alice.channel(Data).send(bytes(1, 3)), /the WebSocket is closing/);
});

test('an abort closes the WebSocket at once, while a write waits and the other direction has ended', async () => {
  const socket = new Stuck();
  const { readable, writable } = await fromWebSocket(socket);
  socket.receive(new ArrayBuffer(0));
  assert.equal((await readable.getReader().read()).done, true);
  const writer = writable.getWriter();
  const waits = writer.write(bytes(2 ** 20 + 1, 1));
  assert.equal(await fate(waits), null);
  writer.abort(new Error('enough')).catch(() => {});
  assert.equal(socket.readyState, 3);
});

test('a write waits while the WebSocket has much to send', async () => {
  const socket = new Stuck();
  const { writable } = await fromWebSocket(socket);
  assert.equal(socket.binaryType, 'arraybuffer');
  const writer = writable.getWriter();
  await writer.write(bytes(2 ** 20, 1));
  const [second, third] = [writer.write(bytes(1, 2)), writer.write(bytes(1, 3))];
  assert.deepEqual([await fate(second), await fate(third), socket.sent.length], [null, null, 2]);
  socket.bufferedAmount = 0;
  await third;
  await writer.write(new Uint8Array(0));
  assert.deepEqual(socket.sent.map(it => it.length), [2 ** 20, 1, 1]);
  await assert.rejects(writer.write('text'), TypeError);
});

for (const order of ['heard first', 'said first']) {
  test(`a WebSocket is closed once both directions have ended, ${order}`, async () => {
    const socket = new Stuck();
    const { readable, writable } = await fromWebSocket(socket);
    const hear = () => socket.receive(new ArrayBuffer(0));
    const say = () => writable.getWriter().close();
    const [first, second] = order === 'heard first' ? [hear, say] : [say, hear];
    await first();
    assert.equal(socket.readyState, 1);
    await second();
    assert.equal(socket.readyState, 3);
    assert.deepEqual([await readable.getReader().read(), socket.sent], [{ done: true, value: undefined }, [new Uint8Array(0)]]);
  });
}

test('a WebSocket that is closed has no streams', async () => {
  const socket = new Stuck();
  socket.readyState = 3;
  await assert.rejects(fromWebSocket(socket), /closed/);
  const never = new WebSocket('ws://127.0.0.1:9');
  await assert.rejects(fromWebSocket(never), /closed/);
});

test('a signal ends the wait for a WebSocket, and closes it', async context => {
  // A server that accepts connections, and answers nothing.
  const server = createServer(() => {}).listen(0, '127.0.0.1');
  await once(server, 'listening');
  context.after(() => server.close());
  const address = `ws://127.0.0.1:${server.address().port}`;
  const stop = new AbortController();
  const socket = new WebSocket(address);
  const waiting = fromWebSocket(socket, { signal: stop.signal });
  assert.equal(await fate(waiting), null);
  stop.abort(new Error('too slow'));
  await assert.rejects(waiting, /too slow/);
  assert.ok(socket.readyState >= socket.CLOSING);
  assert.deepEqual(getEventListeners(stop.signal, 'abort'), []);
  const later = new WebSocket(address);
  later.on('error', () => {});
  await assert.rejects(fromWebSocket(later, { signal: stop.signal }), /too slow/);
  assert.equal(later.readyState, later.CONNECTING);
  later.terminate();
  await assert.rejects(fromWebSocket(later, stop.signal), TypeError);
});

test('a connection that ends within a message is lost', async () => {
  const server = new WebSocketServer({ port: 0, host: '127.0.0.1' });
  await once(server, 'listening');
  server.on('connection', socket => {
    socket.send(Uint8Array.of(0x21, 0));
    socket.send(new Uint8Array(0));
  });
  const session = await open(await fromWebSocket(new WebSocket(`ws://127.0.0.1:${server.address().port}`)));
  await assert.rejects(session.channel(Data).receive(), it => it.kind === 'Stopped' && it.cause.kind === 'Truncated');
  server.close();
});
