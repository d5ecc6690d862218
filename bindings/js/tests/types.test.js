import assert from 'node:assert/strict';
import { spawnSync } from 'node:child_process';
import { copyFileSync, mkdtempSync, readFileSync, rmSync, writeFileSync } from 'node:fs';
import { test } from 'node:test';
import { fileURLToPath } from 'node:url';
import { DEBIAN } from './debian.js';

const folder = fileURLToPath(new URL('types', import.meta.url));

const compile = (at, ...words) => {
  const { status, stdout, stderr, error } = spawnSync('tsc', ['--project', at, ...words], { encoding: 'utf8' });
  assert.ifError(error);
  return { status, said: stdout + stderr };
};

test('right uses compile, and wrong ones do not', () => {
  assert.deepEqual(compile(folder), { status: 0, said: '' });
  assert.ok(readFileSync(`${folder}/wrong.ts`, 'utf8').match(/@ts-expect-error/g).length > 25);
});

test('an error that is expected and not there is seen', () => {
  const place = mkdtempSync(`${folder}/planted-`);
  try {
    for (const name of ['tsconfig.json', 'right.ts', 'wrong.ts']) {
      const text = readFileSync(`${folder}/${name}`, 'utf8').replaceAll('"../../', '"../../../');
      writeFileSync(`${place}/${name}`, name === 'wrong.ts' ? text.replace('peer.send(7, body)', 'peer.send(6, body)') : text);
    }
    const { status, said } = compile(place);
    assert.notEqual(status, 0);
    assert.match(said, /wrong\.ts\(\d+,\d+\): error TS2578: Unused '@ts-expect-error' directive\.\n$/);
    assert.equal(said.trim().split('\n').length, 1);
  } finally {
    rmSync(place, { recursive: true });
  }
});

test('without the library dom the types compile, and a wrong use is seen', () => {
  assert.deepEqual(compile(`${folder}/bare`), { status: 0, said: '' });
  const place = mkdtempSync(`${folder}/planted-`);
  try {
    copyFileSync(`${folder}/bare/tsconfig.json`, `${place}/tsconfig.json`);
    writeFileSync(`${place}/bare.ts`, readFileSync(`${folder}/bare/bare.ts`, 'utf8').replace('message.length', 'message.size'));
    assert.match(compile(place).said, /^\S*bare\.ts\(\d+,\d+\): error TS2339: Property 'size' does not exist on type 'Uint8Array'\.\n$/);
  } finally {
    rmSync(place, { recursive: true });
  }
});

test('with the types of Node and without the library dom the types compile, and a wrong use is seen', () => {
  const types = ['--typeRoots', `${DEBIAN}/@types`];
  assert.deepEqual(compile(`${folder}/node`, ...types), { status: 0, said: '' });
  const place = mkdtempSync(`${folder}/planted-`);
  try {
    copyFileSync(`${folder}/node/tsconfig.json`, `${place}/tsconfig.json`);
    writeFileSync(`${place}/node.ts`, readFileSync(`${folder}/node/node.ts`, 'utf8').replace('AbortSignal.timeout(1000)', '1000'));
    assert.match(compile(place, ...types).said, /^\S*node\.ts\(\d+,\d+\): error TS2322: Type 'number' is not assignable to type 'AbortSignal'\.\n$/);
  } finally {
    rmSync(place, { recursive: true });
  }
});
