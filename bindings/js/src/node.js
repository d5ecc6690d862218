// For Node alone: the streams of a TCP socket. Node's own Duplex.toWeb reports the end of the inbound direction only
// once this side has ended, too, so the side that closes last would never observe it.
import { bytesOf, part } from './bytes.js';

const gone = () => new Error('the socket closed');

/**
 * Ends both directions at once, with a reset if the system allows it: without a reset, the peer takes the cut for the
 * end of the stream.
 */
function giveUp(socket) {
  if (!socket.connecting && !socket.writableEnded) {
    try {
      socket.resetAndDestroy?.();
    } catch {
      // TLS and pipes have no reset.
    }
  }
  socket.destroy();
}

/** The inbound direction, until the peer ends it. The socket is read no faster than the stream. */
class Incoming {
  #socket;
  #isOver = false;

  constructor(socket) {
    this.#socket = socket;
  }

  #end(call) {
    if (!this.#isOver) {
      this.#isOver = true;
      call();
    }
  }

  start(controller) {
    const fail = error => this.#end(() => controller.error(error));
    this.#socket.on('data', chunk => this.#receive(chunk, controller, fail));
    this.#socket.once('end', () => this.#ended(controller));
    this.#socket.on('error', fail);
    this.#socket.once('close', () => fail(gone()));
    this.#socket.pause();
  }

  // If libuv reads the last bytes and a reset at once, it reports the reset as an end. A write then fails at once,
  // even an empty one, and writes under way fail by themselves: so the end is reported one turn of the event loop
  // later.
  #ended(controller) {
    if (!this.#socket.writableEnded && this.#socket.writableLength === 0) {
      this.#socket.write(new Uint8Array(0));
    }
    setImmediate(() => this.#end(() => controller.close()));
  }

  // A socket that was set to decode its bytes yields texts, from which the bytes cannot be recovered.
  #receive(chunk, controller, fail) {
    if (this.#isOver) {
      return;
    }
    try {
      controller.enqueue(part(bytesOf(chunk, 'the data of a socket'), 0, Infinity));
      this.#socket.pause();
    } catch (error) {
      fail(error);
      giveUp(this.#socket);
    }
  }

  pull() {
    this.#socket.resume();
  }

  cancel() {
    this.#end(() => giveUp(this.#socket));
  }
}

/** The outbound direction: a write completes once the system has accepted its bytes. */
class Outgoing {
  #socket;

  constructor(socket) {
    this.#socket = socket;
  }

  start(controller) {
    this.#socket.on('error', error => controller.error(error));
    this.#socket.once('close', () => controller.error(gone()));
    // The stream's `abort` waits for the write under way, its signal does not.
    controller.signal.addEventListener('abort', () => giveUp(this.#socket));
  }

  write(bytes) {
    const given = bytesOf(bytes, 'the written chunk');
    return new Promise((resolve, reject) => {
      // Node reports each write of a destroyed socket as done.
      const done = error => (error || this.#socket.destroyed ? reject(error ?? gone()) : resolve());
      this.#socket.write(given, done);
    });
  }

  close() {
    return new Promise((resolve, reject) => this.#socket.end(error => (error ? reject(error) : resolve())));
  }
}

/** Throws if a direction of a socket is over: its end was reported, and would not be reported again. */
function judgeWhole(socket) {
  if (socket.destroyed) {
    throw new Error('the socket was destroyed');
  }
  if (socket.readableEnded) {
    throw new Error('the peer has ended its direction of the socket');
  }
  if (socket.writableEnded) {
    throw new Error('this side has ended its direction of the socket');
  }
  if (socket.readableEncoding) {
    throw new Error(`the socket must not decode its bytes, but its encoding is ${socket.readableEncoding}`);
  }
}

/**
 * Returns the two streams of a socket. It sets `allowHalfOpen`, which Node accepts until it has reported the end of
 * the peer's direction: else Node would end this side's direction as soon as the peer has ended its own, and pending
 * bytes would be lost.
 */
export function fromSocket(socket) {
  judgeWhole(socket);
  socket.allowHalfOpen = true;
  socket.setNoDelay?.(true);
  return { readable: new ReadableStream(new Incoming(socket)), writable: new WritableStream(new Outgoing(socket)) };
}
