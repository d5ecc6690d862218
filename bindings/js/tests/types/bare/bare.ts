// Uses without the library `dom`: there is no console, no fetch and no WebSocket.
import { Channel, Code, ENDED, LcmuxError, load, open } from 'lcmux';
import type { SessionChannel, Streams } from 'lcmux';
import { fromSocket } from 'lcmux/node';

export async function bytesOn(socket: object): Promise<number> {
  const streams: Streams = fromSocket(socket);
  const session = await open(streams, { version: 2 });
  const data: SessionChannel = session.channel(Channel.Data);
  let count = 0;
  for await (const message of data.values()) {
    count += message.length;
  }
  await session.close();
  return count;
}

export async function first(bytes: Uint8Array): Promise<Uint8Array | null> {
  const peer = (await load(bytes)).peer();
  try {
    const message = peer.take(Channel.Data);
    return message === ENDED ? null : message;
  } catch (error) {
    if (error instanceof LcmuxError && error.code === Code.NoPeer) {
      return null;
    }
    throw error;
  }
}
