// A headless Firefox that loads one page. The page reports its result by a request.
import { spawn } from 'node:child_process';
import { once } from 'node:events';
import { mkdtemp, readFile, rm, writeFile } from 'node:fs/promises';
import { createServer } from 'node:http';
import { tmpdir } from 'node:os';
import { extname, join } from 'node:path';
import { fileURLToPath } from 'node:url';

const PACKAGE = fileURLToPath(new URL('..', import.meta.url));
const TYPES = { '.js': 'text/javascript', '.wasm': 'application/wasm', '.txt': 'text/plain' };

// No pages of its own and no requests to Mozilla at the start, and no question whether a slow script shall go on.
const PREFERENCES = {
  'dom.max_script_run_time': 0,
  'browser.shell.checkDefaultBrowser': false,
  'browser.startup.page': 0,
  'datareporting.policy.dataSubmissionEnabled': false,
  'toolkit.telemetry.reportingpolicy.firstRun': false,
  'app.normandy.enabled': false,
  'network.captive-portal-service.enabled': false,
  'network.connectivity-service.enabled': false,
};

const pageOf = (run, words) => `<!doctype html><meta charset="utf-8"><script type="module">
  const report = result => fetch('/result', { method: 'POST', body: JSON.stringify(result) });
  try {
    report({ value: await (${run})(...${JSON.stringify(words).replaceAll('<', '\\u003c')}) });
  } catch (error) {
    report({ error: String(error) });
  }
</script>`;

async function bodyOf(request) {
  const chunks = [];
  for await (const chunk of request) {
    chunks.push(chunk);
  }
  return Buffer.concat(chunks).toString();
}

/** Serves the package and a page, and resolves with the page's report. */
class Server {
  result = new Promise(resolve => (this.report = resolve));
  #page;

  constructor(page) {
    this.#page = page;
    this.http = createServer((request, response) => this.#serve(request, response));
  }

  async #serve(request, response) {
    if (request.url === '/result') {
      this.report(JSON.parse(await bodyOf(request)));
      response.writeHead(204).end();
    } else if (request.url === '/') {
      response.writeHead(200, { 'content-type': 'text/html' }).end(this.#page);
    } else {
      this.#file(new URL(request.url, 'http://localhost').pathname, response);
    }
  }

  async #file(path, response) {
    try {
      const bytes = await readFile(join(PACKAGE, path));
      response.writeHead(200, { 'content-type': TYPES[extname(path)] }).end(bytes);
    } catch {
      response.writeHead(404).end();
    }
  }
}

/** Runs a function in a page, whose words are data, and returns its value. */
export async function inFirefox(run, ...words) {
  const server = new Server(pageOf(run, words));
  await once(server.http.listen(0, '127.0.0.1'), 'listening');
  const profile = await mkdtemp(join(tmpdir(), 'firefox-'));
  const lines = Object.entries(PREFERENCES).map(([name, value]) => `user_pref("${name}", ${JSON.stringify(value)});\n`);
  await writeFile(join(profile, 'user.js'), lines.join(''));
  const flags = ['--headless', '--no-remote', '--profile', profile, `http://127.0.0.1:${server.http.address().port}/`];
  const firefox = spawn('firefox-esr', flags, { stdio: 'ignore', env: { ...process.env, HOME: profile } });
  const ended = once(firefox, 'exit').then(() => ({ error: 'Firefox has ended' }), ({ message }) => ({ error: message }));
  try {
    const { value, error } = await Promise.race([server.result, ended]);
    if (error !== undefined) {
      throw new Error(error);
    }
    return value;
  } finally {
    firefox.kill();
    await ended;
    server.http.close();
    server.http.closeAllConnections();
    await rm(profile, { recursive: true, force: true, maxRetries: 20 }); // its processes may still write into it
  }
}
