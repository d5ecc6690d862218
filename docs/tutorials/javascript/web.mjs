import { readFile } from 'node:fs/promises';
import { createServer } from 'node:http';
import { Channel, fromWebSocket, open } from 'lcmux';
import { WebSocketServer } from 'ws';

const TYPES = { html: 'text/html', js: 'text/javascript', wasm: 'application/wasm' };

/** Serves the page, and the files of the package. */
async function serve(request, response) {
  try {
    const { pathname } = new URL(request.url, 'http://localhost');
    const path = pathname === '/' ? '/page.html' : pathname;
    if (path !== '/page.html' && !path.startsWith('/node_modules/lcmux/')) {
      throw new Error('outside');
    }
    const bytes = await readFile(new URL(`.${path}`, import.meta.url));
    response.writeHead(200, { 'content-type': TYPES[path.split('.').at(-1)] }).end(bytes);
  } catch {
    response.writeHead(404).end();
  }
}

async function echo(socket) {
  const session = await open(await fromWebSocket(socket));
  const data = session.channel(Channel.Data);
  for await (const message of data) {
    await data.send(message);
  }
  data.finish();
  await session.close();
}

const port = Number(process.argv[2]);
const server = createServer(serve);
new WebSocketServer({ server }).on('connection', socket => {
  echo(socket).catch(error => console.error(`a session failed: ${error.message}`));
});
server.listen(port, '127.0.0.1', () => console.log(`open http://127.0.0.1:${port}/`));
