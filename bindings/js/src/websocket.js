import { bytesOf, isArrayBuffer, sizeOf } from './bytes.js';
import { signalOf } from './judge.js';
import { unlessAborted } from './waits.js';

/** The most bytes that may be pending in a WebSocket before the next write waits. */
const HIGH = 1 << 20;

/** How often a full WebSocket is polled, in milliseconds: it has no event for free space. */
const LOOK = 10;

const OPEN = 1;
const NORMAL = 1000;

/** The code of RFC 6455 for a message of an unsupported kind, and its substitute in a page. */
const UNSUPPORTED = 1003;
const UNSUPPORTED_FOR_PAGE = 4003;

const gone = ({ code, reason }) => new Error(`the WebSocket closed (${code}${reason && ` ${reason}`})`);

// A browser delivers a message to a background tab sooner than a timer, and outbound messages are usually answered.
function later(socket) {
  return new Promise(resolve => {
    const look = () => {
      clearTimeout(timer);
      socket.removeEventListener('message', look);
      resolve();
    };
    const timer = setTimeout(look, LOOK);
    socket.addEventListener('message', look);
  });
}

// A page may use only the codes 1000 and 3000 to 4999.
function closeUnsupported(socket) {
  try {
    socket.close(UNSUPPORTED);
  } catch {
    socket.close(UNSUPPORTED_FOR_PAGE);
  }
}

/** The two directions of a WebSocket, each with its own end. */
class Directions {
  #socket;
  // The controllers of the streams, null once a direction is over: a stream that ended or failed accepts no more calls.
  #incoming = null;
  #outgoing = null;

  constructor(socket) {
    this.#socket = socket;
    this.readable = new ReadableStream({
      start: controller => void (this.#incoming = controller),
      cancel: () => {
        this.#incoming = null;
        socket.close();
      },
    });
    this.writable = new WritableStream({
      start: controller => this.#startWriting(controller),
      write: bytes => this.#write(bytes),
      close: () => this.#endWriting(),
      abort: () => this.#giveUp(),
    });
    socket.addEventListener('message', ({ data }) => this.#receive(data));
    socket.addEventListener('close', event => this.#fail(gone(event)), { once: true });
    socket.addEventListener('error', () => {}); // a close event follows
  }

  // A WebSocket message is a part of the stream, or its end if it is empty.
  #receive(data) {
    if (this.#incoming === null) {
      return;
    }
    if (!isArrayBuffer(data)) {
      this.#fail(new TypeError(`a WebSocket message must be bytes, got ${typeof data}`));
      closeUnsupported(this.#socket);
      return;
    }
    const bytes = new Uint8Array(data);
    if (sizeOf(bytes) > 0) {
      this.#incoming.enqueue(bytes);
    } else {
      this.#incoming.close();
      this.#incoming = null;
      this.#closeIfBoth();
    }
  }

  // The stream's `abort` waits for the write under way. Its signal, which old browsers lack, does not.
  #startWriting(controller) {
    this.#outgoing = controller;
    controller.signal?.addEventListener('abort', () => this.#giveUp());
  }

  #giveUp() {
    this.#outgoing = null;
    this.#socket.close();
  }

  async #write(bytes) {
    const given = bytesOf(bytes, 'the written chunk');
    if (sizeOf(given) === 0) {
      return; // an empty message would be the end
    }
    this.#send(given);
    while (this.#socket.bufferedAmount > HIGH && this.#socket.readyState === OPEN) {
      await later(this.#socket);
    }
  }

  #endWriting() {
    this.#send(new Uint8Array(0));
    this.#outgoing = null;
    this.#closeIfBoth();
  }

  // A closing WebSocket drops its bytes silently.
  #send(bytes) {
    if (this.#socket.readyState !== OPEN) {
      throw new Error('the WebSocket is closing and sends nothing more');
    }
    this.#socket.send(bytes);
  }

  #closeIfBoth() {
    if (this.#incoming === null && this.#outgoing === null) {
      this.#socket.close(NORMAL);
    }
  }

  #fail(error) {
    this.#incoming?.error(error);
    this.#outgoing?.error(error);
    this.#incoming = this.#outgoing = null;
  }
}

const opened = socket =>
  new Promise((resolve, reject) => {
    socket.addEventListener('open', resolve, { once: true });
    socket.addEventListener('close', event => reject(gone(event)), { once: true });
  });

/**
 * Returns the two streams of a WebSocket. It has no half-close, so an empty message means that its sender writes no
 * more: the peer has to use this function, too.
 */
export async function fromWebSocket(socket, options) {
  const signal = signalOf(options);
  if (socket.readyState > OPEN) {
    throw new Error('the WebSocket is closed');
  }
  socket.binaryType = 'arraybuffer';
  const { readable, writable } = new Directions(socket);
  if (socket.readyState < OPEN) {
    await unlessAborted(opened(socket), signal).catch(error => {
      socket.close();
      throw error;
    });
  }
  return { readable, writable };
}
