// The relay of the examples, for a test.
import { spawn } from 'node:child_process';
import { once } from 'node:events';
import { createRequire } from 'node:module';
import { fileURLToPath } from 'node:url';

// Where Debian puts packages.
process.env.NODE_PATH = '/usr/share/nodejs';
const PROGRAM = fileURLToPath(new URL('../examples/relay.js', import.meta.url));

/** The package ws of Debian. */
export const { WebSocket, WebSocketServer } = createRequire(import.meta.url)('/usr/share/nodejs/ws');

/** A relay with an address for pages, and one for WebSockets. */
export async function startRelay() {
  const program = spawn(process.execPath, [PROGRAM], { stdio: ['ignore', 'pipe', 'inherit'] });
  const [line] = await once(program.stdout, 'data');
  const page = String(line).trim();
  const stop = async () => {
    program.kill();
    await once(program, 'exit');
  };
  return { page, socket: new URL('/', page).href.replace('http', 'ws'), stop };
}
