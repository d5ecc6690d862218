// Two sides in two processes, over one TCP connection: `node examples/tcp.js`. The program starts itself a second
// time as its peer.
import { spawn } from 'node:child_process';
import { once } from 'node:events';
import { connect, createServer } from 'node:net';
import { fileURLToPath } from 'node:url';
import { Channel, open } from 'lcmux';
import { fromSocket } from 'lcmux/node';

const MESSAGES = 1000;
const config = { capacities: 64 };

async function sendAll(port) {
  const session = await open(fromSocket(connect({ port, host: '127.0.0.1' })), config);
  const data = session.channel(Channel.Data);
  for (let k = 0; k < MESSAGES; k += 1) {
    await data.send(Uint8Array.of(k >> 8, k));
  }
  await session.close(); // finishes the channel, which ends the peer's iteration
}

async function takeAll(socket) {
  const session = await open(fromSocket(socket), config);
  let next = 0;
  for await (const [high, low] of session.channel(Channel.Data)) {
    if (high * 256 + low !== next) {
      throw new Error(`message ${next} is another`);
    }
    next += 1;
  }
  await session.close();
  return next;
}

async function main() {
  const server = createServer().listen(0, '127.0.0.1');
  await once(server, 'listening');
  const { port } = server.address();
  const peer = spawn(process.execPath, [fileURLToPath(import.meta.url), String(port)], { stdio: 'inherit' });
  const ended = once(peer, 'exit').then(([status]) => {
    throw new Error(`the peer ended with status ${status} before it connected`);
  });
  const [socket] = await Promise.race([once(server, 'connection'), ended]);
  console.log(`took ${await takeAll(socket)} messages in order`);
  server.close();
}

const [, , port] = process.argv;
await (port ? sendAll(Number(port)) : main());
