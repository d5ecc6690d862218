import assert from 'node:assert/strict';
import { execFile } from 'node:child_process';
import { test } from 'node:test';
import { promisify } from 'node:util';
import { load } from 'lcmux';
import { buildWalk } from './native.js';
import { walk } from './walk.js';

const STEPS = 1_000_000;

test('a random walk has the native hash', async () => {
  const { stdout } = await promisify(execFile)(await buildWalk(), [String(STEPS)]);
  const { lines, codes } = walk(await load(), STEPS);
  assert.deepEqual(lines, stdout.trim().split('\n'));
  assert.equal(lines.length, STEPS / 100_000);
  // The walk reached refusals, takes, violations and faults.
  for (const code of [0, 1, 3, 4, 5, 6, 8, 9, 10, 11, 13, 15, 16, 17, 48, 49, 50, 101, 103, 104, 107, 109, 201, 202, 203, 204]) {
    assert.ok(codes.get(code) > 0, `code ${code}`);
  }
});
