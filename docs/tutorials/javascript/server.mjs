import { createServer } from 'node:net';
import { Channel, open } from 'lcmux';
import { fromSocket } from 'lcmux/node';

/** Sends every message back on the same channel, until the client has sent its last one. */
async function echo(socket) {
  const session = await open(fromSocket(socket));
  const data = session.channel(Channel.Data);
  for await (const message of data) {
    await data.send(message); // waits while the client has no room for it
  }
  data.finish(); // half-close: nothing more is sent on this channel
  await session.close();
  const { messagesSent, bytesSent } = session.stats(Channel.Data);
  console.log(`echoed ${messagesSent} messages, ${bytesSent} bytes`);
}

const [host, port] = process.argv[2].split(':');
const server = createServer(socket => {
  echo(socket).catch(error => console.error(`a session failed: ${error.message}`));
});
server.listen(Number(port), host, () => console.log(`listening on ${host}:${port}`));
