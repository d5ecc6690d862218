import { connect } from 'node:net';
import { Channel, open } from 'lcmux';
import { fromSocket } from 'lcmux/node';

async function send(data, messages) {
  for (const message of messages) {
    await data.send(new TextEncoder().encode(message));
  }
  data.finish(); // half-close
}

async function print(data) {
  for await (const message of data) {
    console.log(new TextDecoder().decode(message));
  }
}

const [, , address, ...messages] = process.argv;
const [host, port] = address.split(':');
const session = await open(fromSocket(connect({ host, port: Number(port) })));
const data = session.channel(Channel.Data);
await Promise.all([send(data, messages), print(data)]);
await session.close();
console.log('the session is closed');
