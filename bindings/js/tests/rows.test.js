import assert from 'node:assert/strict';
import { readFile } from 'node:fs/promises';
import { test } from 'node:test';
import { load } from 'lcmux';
import { runRows } from './rows.js';

const lcmux = await load();
const [rows, vectors] = await Promise.all(['rows', 'vectors'].map(it => readFile(new URL(`../../${it}.txt`, import.meta.url), 'utf8')));
const count = (text, pattern) => text.match(pattern).length;

for (const [name, text] of Object.entries({ rows, vectors })) {
  for (const piece of [1, 2, 3, 7, Infinity]) {
    test(`the ${name}, in pieces of ${piece}`, () => {
      assert.deepEqual(runRows(lcmux, text, piece), { cases: count(text, /^rings/gm), answers: count(text, / => /g), wrong: [] });
    });
  }
}

test('a wrong row is seen', () => {
  const cases = rows.split(/^(?=rings)/m).slice(1);
  const planted = cases.flatMap(text => [...text.matchAll(/ => .+/g)].map(({ index, 0: { length } }) => [text, index + length]));
  assert.equal(planted.length, count(rows, / => /g));
  for (const [text, end] of planted) {
    assert.equal(runRows(lcmux, `${text.slice(0, end)}1${text.slice(end)}`, Infinity).wrong.length, 1, text);
  }
});
