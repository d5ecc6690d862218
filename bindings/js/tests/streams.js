// Streams for the tests of sessions.
import { Peer } from '../src/peer.js';
import { startSession } from '../src/session.js';
import { refusingModule } from './module.js';

/** Two pipes: the streams of one side, and those of the other. */
export function pipes() {
  const [there, back] = [new TransformStream(), new TransformStream()];
  return [
    { readable: back.readable, writable: there.writable },
    { readable: there.readable, writable: back.writable },
  ];
}

/** Runs until no promise can make progress by itself. */
export async function settled() {
  for (let turn = 0; turn < 10; turn += 1) {
    await new Promise(resolve => setImmediate(resolve));
  }
}

/** Observes a promise: its value, its reason, or null while it is pending. */
export async function fate(promise) {
  let told = null;
  promise.then(
    value => (told = { value }),
    reason => (told = { reason }),
  );
  await settled();
  return told;
}

/**
 * A session whose peer is a bare `Peer`, with which the test writes inbound bytes and reads outbound ones. While
 * `hold` is a promise, a write waits for it. `prepare` may set it before the first write.
 */
export async function alone(config, otherConfig, prepare = () => {}) {
  const { module, exports, told, peer } = await refusingModule();
  const there = { hold: undefined, writes: [], exports, told, module };
  const readable = new ReadableStream({
    start: controller => (there.comes = controller),
    cancel: reason => (there.cancelled = reason),
  });
  const writable = new WritableStream({
    start: controller => (there.goes = controller),
    write: bytes => {
      there.writes.push(bytes);
      return there.hold;
    },
    close: () => (there.isClosed = true),
    abort: reason => (there.aborted = reason),
  });
  prepare(there);
  there.session = startSession(wider => new Peer(module, wider), { readable, writable }, config);
  there.other = peer({ slots: 1000, ...otherConfig });
  there.put = () => there.comes.enqueue(there.other.write());
  there.get = () => there.writes.splice(0).map(bytes => there.other.deliver(bytes));
  await settled();
  return there;
}
