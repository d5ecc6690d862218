import assert from 'node:assert/strict';
import { execFileSync } from 'node:child_process';
import { mkdtemp, readFile, rm, writeFile } from 'node:fs/promises';
import { join } from 'node:path';
import { after, before, test } from 'node:test';
import { fileURLToPath, pathToFileURL } from 'node:url';
import { WebSocket, startRelay } from './relay.js';

const readme = await readFile(new URL('../README.md', import.meta.url), 'utf8');
const exampleOf = name => readme.match(new RegExp(`<!-- ${name}: begin -->\n\`\`\`js\n([^]*?)\`\`\`\n<!-- ${name}: end -->`))[1];

let folder;
before(async () => (folder = await mkdtemp(fileURLToPath(new URL('readme-', import.meta.url)))));
after(() => rm(folder, { recursive: true }));

async function written(name) {
  const file = join(folder, `${name}.js`);
  await writeFile(file, exampleOf(name));
  return file;
}

test('the peers of the README say what stands beside them', async () => {
  const said = [...exampleOf('peer').matchAll(/console\.log.*; \/\/ (.*)/g)].map(([, line]) => line);
  assert.equal(said.length, 3);
  assert.equal(execFileSync(process.execPath, [await written('peer')], { encoding: 'utf8' }), `${said.join('\n')}\n`);
});

test('the session of the README, twenty lines at most, on both sides', async () => {
  assert.ok(exampleOf('session').split('\n').length <= 20);
  const relay = await startRelay();
  globalThis.WebSocket = WebSocket;
  const { talk } = await import(pathToFileURL(await written('session')));
  const [seen, heard] = [[], []];
  await Promise.all([talk(relay.socket, 'hello', line => seen.push(line)), talk(relay.socket, 'and back', line => heard.push(line))]);
  assert.deepEqual([seen, heard], [['and back'], ['hello']]);
  await relay.stop();
});

test('the links of the README lead somewhere', async () => {
  const links = [...readme.matchAll(/\]\(([^)#]+)[^)]*\)/g)].map(([, place]) => place);
  assert.ok(links.length >= 3);
  await Promise.all(links.map(place => readFile(new URL(`../${place}`, import.meta.url))));
});
