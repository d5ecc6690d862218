// Valid uses, and the types of their results.
import { CHANNELS, Channel, Code, ENDED, LcmuxError, Peer, Session, SessionChannel, SessionClosed, VERSION, fromWebSocket, load, open } from 'lcmux';
import type { ClientBook, Config, FrameKind, IssuePolicy, Kind, LcmuxErrorJson, Library, Needs, OffendingFrame, Ready, ServerBook, SessionConfig, SessionEnd, Stats, Streams, Take } from 'lcmux';
import { fromSocket } from 'lcmux/node';

/** Whether two types are one. */
type Same<A, B> = (<T>() => T extends A ? 1 : 2) extends <T>() => T extends B ? 1 : 2 ? true : false;
const same = <A, B>(_: Same<A, B>): void => undefined;

export async function peers(): Promise<void> {
  const lcmux: Library = await load();
  await load(new URL('https://example.org/lcmux.wasm'));
  await load(fetch('lcmux.wasm'));
  await load(new Uint8Array(1));
  await load(undefined, { signal: new AbortController().signal });
  const config: Config = { version: 2, slots: 4, capacities: [1, 2, 3, 4, 5, 6, 7] };
  const peer: Peer = lcmux.peer(config);
  lcmux.peer({ version: undefined, slots: undefined, capacities: undefined });
  const body = new Uint8Array(1);
  for (const channel of CHANNELS) {
    peer.send(channel, body);
  }
  peer.send(6, body);
  peer.issue(Channel.Data, 1);
  peer.limitSending(Channel.Data, 2n ** 62n);
  peer.limitReceiving(Channel.Data, 5);
  same<ReturnType<Peer['take']>, Uint8Array | null | typeof ENDED>(true);
  same<Take<number>, ReturnType<Peer['takeInto']>>(true);
  same<Take<number>, ReturnType<Peer['pop']>>(true);
  same<Take<readonly [Uint8Array, Uint8Array]>, ReturnType<Peer['front']>>(true);
  same<ReturnType<Peer['honour']>, number>(true);
  same<ReturnType<Peer['wouldSend']>, LcmuxError | null>(true);
  same<ReturnType<Peer['wouldHonour']>, LcmuxError | number>(true);
  const message = peer.take(Channel.Data);
  if (message !== null && message !== ENDED) {
    same<typeof message, Uint8Array>(true);
  }
  const needs: Needs = peer.needs(Channel.Data, 5);
  if (needs.kind === 'guarantees') {
    same<typeof needs.missing, number>(true);
  }
  const ready: Ready[] = peer.ready();
  const client: ClientBook = peer.client(0);
  const server: ServerBook = peer.server(0);
  same<typeof client.received, bigint>(true);
  same<typeof client.held, number>(true);
  same<typeof server.sendLeft, bigint | null>(true);
  same<typeof server.room, number>(true);
  console.log(ready, VERSION, lcmux.version, lcmux.hasTrapped, lcmux.text(Code.NoGuarantee), peer.version, peer.write(5).length);
}

export function errors(error: unknown): Kind | undefined {
  if (error instanceof LcmuxError) {
    same<typeof error.number, number | bigint | undefined>(true);
    same<ReturnType<LcmuxError['toJSON']>, LcmuxErrorJson>(true);
    same<NonNullable<LcmuxError['frame']>, OffendingFrame>(true);
    same<OffendingFrame['kind'], FrameKind>(true);
    return error.code === Code.NoGuarantee && !error.isStop ? error.kind : undefined;
  }
  return undefined;
}

export async function sessions(socket: WebSocket, tcp: object): Promise<void> {
  const streams: Streams = await fromWebSocket(socket);
  const session: Session = await open(streams, { version: 2 });
  await open(fromSocket(tcp));
  await open({ readable: new ReadableStream<Uint8Array>(), writable: new WritableStream<Uint8Array>() });
  const data: SessionChannel = session.channel(Channel.Data);
  await data.send(new Uint8Array(1), { signal: new AbortController().signal });
  for await (const message of data) {
    same<typeof message, Uint8Array>(true);
  }
  const { signal } = new AbortController();
  for await (const message of data.values({ signal })) {
    same<typeof message, Uint8Array>(true);
  }
  await fromWebSocket(socket, { signal });
  await data.readable.pipeTo(data.writable, { signal });
  const through: ReadableStream<Uint8Array> = data.readable.pipeThrough(session.channel(Channel.Overlap));
  same<typeof data.readable, ReadableStream<Uint8Array>>(true);
  same<typeof data.writable, WritableStream<Uint8Array>>(true);
  same<ReturnType<Session[typeof Symbol.asyncDispose]>, Promise<void>>(true);
  await through.cancel();
  same<Awaited<ReturnType<SessionChannel['receive']>>, Uint8Array | null>(true);
  const policies: IssuePolicy[] = ['at once', { lowWater: 5 }, 'by caller', 'at once', 'at once', 'at once', 'at once'];
  const config: SessionConfig = { version: 2, slots: 14, issue: policies, plead: 'by caller', signal };
  await open(streams, config);
  data.issue(data.room);
  data.setIssuePolicy({ lowWater: 5 });
  data.plead(5);
  data.limitReceiving(5n);
  data.absolve(data.held);
  data.limitSending(5);
  same<typeof data.pleaded, number | null>(true);
  same<ReturnType<SessionChannel['honour']>, number>(true);
  same<ReturnType<SessionChannel['finish']>, void>(true);
  data.finish();
  const stats: Stats = session.stats(Channel.Data);
  same<typeof stats.waitedForSlots, number>(true);
  session.abort(new Error('enough'));
  if (session.reason !== null) {
    const kind: SessionEnd = session.reason.kind;
    console.log(kind === 'Cut', new SessionClosed('Aborted').cause);
    await session.close({ signal });
  }
  await session.closed;
}
