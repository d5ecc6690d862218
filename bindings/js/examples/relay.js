// Serves the package and the page tabs.html on 127.0.0.1, and relays between WebSockets, the first with the second,
// the third with the fourth and so on: `NODE_PATH=/usr/share/nodejs node examples/relay.js [PORT]` with Debian's
// node-ws.
import { readFile } from 'node:fs/promises';
import { createServer } from 'node:http';
import { createRequire } from 'node:module';
import { extname } from 'node:path';

const { WebSocketServer } = createRequire(import.meta.url)('ws');

const PACKAGE = new URL('..', import.meta.url);
const TYPES = { '.html': 'text/html', '.js': 'text/javascript', '.wasm': 'application/wasm', '.txt': 'text/plain' };

async function serve(request, response) {
  try {
    const place = new URL(`.${new URL(request.url, 'http://localhost').pathname}`, PACKAGE);
    if (!place.href.startsWith(PACKAGE.href)) {
      throw new Error('outside');
    }
    const bytes = await readFile(place);
    response.writeHead(200, { 'content-type': TYPES[extname(place.pathname)] ?? 'application/octet-stream' }).end(bytes);
  } catch {
    response.writeHead(404, { 'content-type': 'text/plain' }).end('not found\n');
  }
}

// Forwards the bytes of one WebSocket to the other. While the other has many pending bytes, no more are read.
function forward(from, to) {
  from.on('message', (bytes, binary) => {
    from.pause();
    to.send(bytes, { binary }, () => from.resume());
  });
  from.on('close', () => to.close());
}

// The WebSocket that waits for a partner, and the messages that it sent meanwhile.
class Waiting {
  #socket;
  #held = [];
  #hold = (bytes, binary) => this.#held.push([bytes, { binary }]);

  constructor(socket) {
    this.#socket = socket.on('message', this.#hold);
  }

  get isThere() {
    return this.#socket.readyState === this.#socket.OPEN;
  }

  join(other) {
    this.#socket.off('message', this.#hold);
    this.#held.forEach(words => other.send(...words));
    forward(this.#socket, other);
    forward(other, this.#socket);
  }
}

const server = createServer(serve);
let waiting = null;
new WebSocketServer({ server }).on('connection', socket => {
  socket.on('error', () => socket.terminate());
  if (waiting?.isThere) {
    waiting.join(socket);
    waiting = null;
  } else {
    waiting = new Waiting(socket);
  }
});
server.listen(Number(process.argv[2] ?? 0), '127.0.0.1', () => {
  console.log(`http://127.0.0.1:${server.address().port}/examples/tabs.html`);
});
