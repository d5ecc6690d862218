// Native programs that the module is compared with. They link the archive of crates/lc_c that LCMUX_ARCHIVE names,
// else the one that `rt lib` made in that crate's folder.
import { execFile } from 'node:child_process';
import { mkdir } from 'node:fs/promises';
import { fileURLToPath } from 'node:url';
import { promisify } from 'node:util';

const run = promisify(execFile);
const pathOf = path => fileURLToPath(new URL(`../${path}`, import.meta.url));
const archive = process.env.LCMUX_ARCHIVE ?? pathOf('../../crates/lc_c/out/liblc_c.a');
const out = pathOf('out/native');

/** Compiles the walk, and returns the path of the program. */
export async function buildWalk() {
  await mkdir(out, { recursive: true });
  await run('make', ['-s', '-C', pathOf('../c'), `ARCHIVE=${archive}`, `BUILD=${out}`, 'CC=gcc', `${out}/liblcmux.a`]);
  const words = ['-O2', '-std=c11', '-Wall', '-Wextra', '-Werror', '-I', pathOf('../c'), pathOf('tests/walk.c'), `${out}/liblcmux.a`];
  await run('gcc', [...words, '-o', `${out}/walk`]);
  return `${out}/walk`;
}

/** Builds the peer of an exchange with the crate for Rust, and returns the path of the program. */
export async function buildExchange() {
  const env = { ...process.env, LCMUX_ARCHIVE: archive, CARGO_TARGET_DIR: `${out}/target` };
  const words = ['build', '--offline', '--quiet', '--release', '--manifest-path', pathOf('tests/exchange/Cargo.toml')];
  await run('cargo', words, { env });
  return `${out}/target/release/exchange`;
}
