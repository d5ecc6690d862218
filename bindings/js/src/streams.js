// A channel as two streams of bytes.
import { bytesOf, part, sizeOf } from './bytes.js';
import { isAnswer } from './closed.js';

/** The most bytes of a message that a write makes. */
const MOST = 16_384;

// Takes no more guarantees from the peer. The direction or the session may have ended.
function refuseMore(channel) {
  try {
    channel.limitReceiving(0);
  } catch (error) {
    if (!isAnswer(error)) {
      throw error;
    }
  }
}

/** Returns a stream of the messages of a channel. It receives a message only when its reader asks for one. */
export function readableOf(channel) {
  const cancelled = new AbortController();
  const source = {
    async pull(controller) {
      const message = await channel.receive({ signal: cancelled.signal });
      if (message === null) {
        controller.close();
      } else {
        controller.enqueue(message);
      }
    },
    cancel(reason) {
      cancelled.abort(reason);
      refuseMore(channel);
    },
  };
  return new ReadableStream(source, { highWaterMark: 0 });
}

const judged = chunk => bytesOf(chunk, 'the written chunk');

// The chunk is judged before each part: one that was transferred meanwhile is an error, and not sent in full.
async function sendAll(chunk, sendPart, signal) {
  const size = sizeOf(judged(chunk));
  for (let sent = 0; sent < size; ) {
    signal.throwIfAborted(); // it may have aborted between two parts
    sent += await sendPart(part(judged(chunk), sent, size), MOST, signal);
  }
}

/**
 * Returns a stream whose chunks are cut into messages of a channel. `sendPart` sends the beginning of some bytes,
 * `ended` resolves with the reason once the session is over, and `abort` aborts it.
 */
export function writableOf(channel, { sendPart, ended, abort }) {
  const aborted = new AbortController();
  return new WritableStream({
    start(controller) {
      ended.then(reason => controller.error(reason));
      // The stream's `abort` waits for the write under way, its signal does not. Old browsers have no signal.
      controller.signal?.addEventListener('abort', () => aborted.abort(controller.signal.reason));
    },
    write: chunk => sendAll(chunk, sendPart, aborted.signal),
    close: () => channel.finish(),
    abort,
  });
}
