// What bundlers make of the package, in Chromium and in Node.
import assert from 'node:assert/strict';
import { execFile } from 'node:child_process';
import { once } from 'node:events';
import { cp, mkdir, mkdtemp, readdir, readFile, rm, writeFile } from 'node:fs/promises';
import { createServer } from 'node:http';
import { tmpdir } from 'node:os';
import { extname, join } from 'node:path';
import { after, before, test } from 'node:test';
import { fileURLToPath } from 'node:url';
import { promisify } from 'node:util';
import { Chromium } from './chromium.js';
import { DEBIAN, WEBPACK } from './debian.js';

const run = promisify(execFile);
const TOP = fileURLToPath(new URL('..', import.meta.url));
const { files, version } = JSON.parse(await readFile(join(TOP, 'package.json'), 'utf8'));

/** The scripts that are built: how each one gets the module, and where its result goes. */
const SCRIPTS = {
  'page-bytes.js': `import wasm from 'lcmux/lcmux.wasm';
    import { hello } from './bundled.js';
    hello(wasm).then(said => (document.title = said), error => (document.title = String(error)));`,
  'page-address.js': `import { hello } from './bundled.js';
    hello(new URL('lcmux.wasm', document.baseURI)).then(said => (document.title = said), error => (document.title = String(error)));`,
  'node-bytes.js': `import wasm from 'lcmux/lcmux.wasm';
    import { hello } from './bundled.js';
    hello(wasm).then(console.log);`,
  'own.js': `import { Channel, open } from 'lcmux';
    import { hello } from './bundled.js';
    async function opened() {
      const [there, back] = [new TransformStream(), new TransformStream()];
      const ends = [{ readable: back.readable, writable: there.writable }, { readable: there.readable, writable: back.writable }];
      const [alice, bob] = await Promise.all(ends.map(it => open(it)));
      await alice.channel(Channel.Data).send(Uint8Array.of(7));
      const [byte] = await bob.channel(Channel.Data).receive();
      await Promise.all([alice.close(), bob.close()]);
      return byte;
    }
    export const own = async () => (await hello()) + (await opened());`,
  'page-own.js': `import { own } from './own.js';
    own().then(said => (document.title = said), error => (document.title = String(error)));`,
  'node-own.js': `import { own } from './own.js';
    own().then(console.log, error => console.log(error.message));`,
};

let project;
let server;
let chromium;

/** A folder with these scripts, and with the files that npm installs. */
async function layOut() {
  project = await mkdtemp(join(tmpdir(), 'bundled-'));
  const installed = join(project, 'node_modules/lcmux');
  await Promise.all([...files, 'package.json'].map(it => cp(join(TOP, it), join(installed, it), { recursive: true })));
  await cp(join(TOP, 'examples/bundled.js'), join(project, 'bundled.js'));
  await Promise.all(Object.entries(SCRIPTS).map(([name, text]) => writeFile(join(project, name), text)));
  await mkdir(join(project, 'dist'));
  await cp(join(TOP, 'out/lcmux.wasm'), join(project, 'dist/lcmux.wasm'));
}

const TYPES = { '.js': 'text/javascript', '.wasm': 'application/wasm' };
const POLICY = "default-src 'none'; connect-src 'self'; script-src 'self'";
const WITH_WASM = `${POLICY} 'wasm-unsafe-eval'`;

/** Serves the folder dist, and for /page?script=NAME&policy=POLICY a page with that script. */
async function serve(request, response) {
  const { pathname, searchParams } = new URL(request.url, 'http://localhost');
  if (pathname === '/page') {
    const [script, policy, type] = ['script', 'policy', 'type'].map(it => searchParams.get(it));
    const headers = { 'content-type': 'text/html', 'content-security-policy': policy };
    response.writeHead(200, headers).end(`<!doctype html><title></title><script type="${type}" src="${script}"></script>`);
    return;
  }
  try {
    const bytes = await readFile(join(project, 'dist', pathname));
    response.writeHead(200, { 'content-type': TYPES[extname(pathname)] }).end(bytes);
  } catch {
    response.writeHead(404).end();
  }
}

before(async () => {
  server = createServer(serve).listen(0, '127.0.0.1');
  [chromium] = await Promise.all([Chromium.start(), layOut(), once(server, 'listening')]);
});
after(async () => {
  server.close();
  await Promise.all([chromium.stop(), rm(project, { recursive: true })]);
});

const esbuild = (script, to, ...words) => run('esbuild', [script, '--bundle', `--outfile=dist/${to}`, ...words], { cwd: project });

/** Runs rollup with its plugin node-resolve, which has these options. */
async function rollup(script, to, format, options) {
  const config = `import resolve from '${join(DEBIAN, '@rollup/plugin-node-resolve/dist/es/index.js')}';
  export default {
    input: '${script}',
    output: { file: 'dist/${to}', format: '${format}' },
    plugins: [resolve(${JSON.stringify(options)})],
  };`;
  await writeFile(join(project, 'rollup.config.mjs'), config);
  return run('rollup', ['--config', 'rollup.config.mjs'], { cwd: project });
}

/** Runs webpack with this target, and returns the name of the only file that it copied. */
async function webpack(script, target) {
  const to = join(project, 'dist', target);
  const words = ['--mode', 'production', '--target', target, '--entry', `./${script}`, '--output-path', to, '--output-filename', 'app.js'];
  await run(process.execPath, [...WEBPACK, ...words], { cwd: project });
  const [copied, ...others] = (await readdir(to)).filter(it => it !== 'app.js');
  assert.deepEqual(others, []);
  assert.match(copied, /^[0-9a-f]+\.wasm$/);
  assert.deepEqual(await readFile(join(to, copied)), await readFile(join(TOP, 'out/lcmux.wasm')));
  return copied;
}

/** The result of a script in a page with this policy. */
async function shownBy(script, policy, type) {
  const query = new URLSearchParams({ script, policy, type });
  const tab = await chromium.tab(`http://127.0.0.1:${server.address().port}/page?${query}`);
  // A minute or more: a script that is not loaded leaves no title.
  const shown = await tab.evaluate(`(async () => {
    for (let left = 6000; document.title === '' && left > 0; left -= 1) await new Promise(resolve => setTimeout(resolve, 10));
    return document.title;
  })()`);
  await tab.close();
  return shown;
}

const printedBy = async script => (await run(process.execPath, [join(project, 'dist', script)])).stdout;
const textOf = script => readFile(join(project, 'dist', script), 'utf8');

const BYTES = '--loader:.wasm=binary';
const FOR_PAGES = { browser: true };
const FOR_NODE = { exportConditions: ['node'] };
const PAGES = {
  'esbuild, esm, bytes': ['module', to => esbuild('page-bytes.js', to, '--format=esm', BYTES)],
  'esbuild, iife, bytes': ['text/javascript', to => esbuild('page-bytes.js', to, '--format=iife', BYTES)],
  'esbuild, esm, an address': ['module', to => esbuild('page-address.js', to, '--format=esm')],
  'esbuild, iife, an address, minified': ['text/javascript', to => esbuild('page-address.js', to, '--format=iife', '--minify')],
  'rollup, es': ['module', to => rollup('page-address.js', to, 'es', FOR_PAGES)],
  'rollup, iife': ['text/javascript', to => rollup('page-address.js', to, 'iife', FOR_PAGES)],
};

test('a page runs what a bundler made, and its policy has to allow WebAssembly', async context => {
  for (const [name, [type, make]] of Object.entries(PAGES)) {
    await context.test(name, async () => {
      await make('page.js');
      assert.doesNotMatch(await textOf('page.js'), /['"]node:/);
      assert.equal(await shownBy('page.js', WITH_WASM, type), 'hello');
      assert.match(await shownBy('page.js', POLICY, type), /^CompileError: .*Content Security Policy/);
    });
  }
});

const NODES = {
  'esbuild, esm': to => esbuild('node-bytes.js', `${to}.mjs`, '--format=esm', '--platform=node', BYTES),
  'esbuild, cjs': to => esbuild('node-bytes.js', `${to}.cjs`, '--format=cjs', '--platform=node', BYTES),
};

test('Node runs what a bundler made', async context => {
  for (const [name, make] of Object.entries(NODES)) {
    await context.test(name, async () => {
      await make('node');
      const script = name.endsWith('esm') ? 'node.mjs' : 'node.cjs';
      assert.match(await textOf(script), /node:fs\/promises/);
      assert.equal(await printedBy(script), 'hello\n');
    });
  }
});

test('without a source, a bundle finds the file beside it, or says what to do', async () => {
  await cp(join(TOP, 'out/lcmux.wasm'), join(project, 'out/lcmux.wasm'), { recursive: true });
  await rollup('node-own.js', 'own.mjs', 'es', FOR_NODE);
  await rollup('node-own.js', 'own.cjs', 'cjs', FOR_NODE);
  assert.deepEqual([await printedBy('own.mjs'), await printedBy('own.cjs')], ['hello7\n', 'hello7\n']);
  await rm(join(project, 'out'), { recursive: true });
  assert.match(await printedBy('own.mjs'), /^ENOENT: .*\/out\/lcmux\.wasm'\n$/);
  await esbuild('node-own.js', 'own.cjs', '--format=cjs', '--platform=node');
  assert.equal(await printedBy('own.cjs'), 'this bundle has no address of lcmux.wasm: pass the module to load\n');
});

test('webpack copies the file for a page, which finds it', async () => {
  await webpack('page-own.js', 'web');
  assert.doesNotMatch(await textOf('web/app.js'), /['"]node:/);
  assert.equal(await shownBy('web/app.js', WITH_WASM, 'text/javascript'), 'hello7');
  assert.match(await shownBy('web/app.js', POLICY, 'text/javascript'), /^CompileError: .*Content Security Policy/);
});

test('webpack copies the file for Node, which finds it', async () => {
  const copied = await webpack('node-own.js', 'node');
  assert.match(await textOf('node/app.js'), /require\("node:fs\/promises"\)/);
  assert.equal(await printedBy('node/app.js'), 'hello7\n');
  await rm(join(project, 'dist/node', copied));
  assert.match(await printedBy('node/app.js'), /^ENOENT: .*\/dist\/node\/[0-9a-f]+\.wasm'\n$/);
});

test('a bundle without a call of the package has nothing of it', async () => {
  await writeFile(join(project, 'none.js'), "import { Channel, load, open } from 'lcmux';\nconsole.log('none');\n");
  await esbuild('none.js', 'none.js', '--format=esm');
  assert.equal((await textOf('none.js')).replace(/^\/\/.*\n/gm, ''), 'console.log("none");\n');
});

/** The results of `require` in a script of CommonJS: of Node as it is, and of one that refuses ES modules. */
async function requiredBy(...flags) {
  const script = join(project, 'required.cjs');
  const call = "require('lcmux').load().then(it => console.log(it.version), error => console.log(error.message))";
  await writeFile(script, `try { ${call}; } catch (error) { console.log(error.code); }\n`);
  return (await run(process.execPath, [...flags, '--no-warnings', script])).stdout;
}

test('CommonJS imports the package, and requires it where Node does that', async () => {
  const [major, minor, patch] = version.split('.').map(Number);
  const number = `${(major << 16) | (minor << 8) | patch}\n`;
  await writeFile(join(project, 'imported.cjs'), "import('lcmux').then(({ load }) => load()).then(it => console.log(it.version));\n");
  assert.equal((await run(process.execPath, [join(project, 'imported.cjs')])).stdout, number);
  if (process.features.require_module) {
    assert.equal(await requiredBy(), number);
    assert.equal(await requiredBy('--no-experimental-require-module'), 'ERR_REQUIRE_ESM\n');
  } else {
    assert.equal(await requiredBy(), 'ERR_REQUIRE_ESM\n');
  }
});
