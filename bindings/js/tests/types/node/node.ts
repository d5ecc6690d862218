// Uses with `@types/node` 18, without the library `dom`.
import { readFile } from 'node:fs/promises';
import { connect } from 'node:net';
import { Readable, Writable } from 'node:stream';
import { ReadableStream, WritableStream } from 'node:stream/web';
import { Channel, load, open } from 'lcmux';
import type { Library, Session } from 'lcmux';
import { fromSocket } from 'lcmux/node';

// Node's streams, sockets, signals, addresses, bytes and responses are what the calls take.
export async function sessions(inbound: Readable, outbound: Writable): Promise<Session[]> {
  const streams = { readable: Readable.toWeb(inbound), writable: Writable.toWeb(outbound) };
  return [
    await open(streams, { signal: AbortSignal.timeout(1000) }),
    await open(fromSocket(connect(7)), { signal: new AbortController().signal }),
    await open({ readable: new ReadableStream<Uint8Array>(), writable: new WritableStream<Uint8Array>() }),
  ];
}

export const libraries = (): Promise<Library[]> =>
  Promise.all([load(new URL('lcmux.wasm', import.meta.url)), load(readFile('lcmux.wasm')), load(fetch('http://localhost/lcmux.wasm'))]);

// These types have the streams without their members, so a stream that a call returns is cast to Node's.
export async function first(session: Session): Promise<Uint8Array | undefined> {
  const readable = session.channel(Channel.Data).readable as ReadableStream<Uint8Array>;
  return (await readable.getReader().read()).value;
}
