// The programs, whose output is expected.
import { spawnSync } from 'node:child_process';

const TOP = new URL('../../../', import.meta.url).pathname;

/** Runs a program and returns its status and both texts. */
function program(name, words, input) {
  const { status, stdout, stderr } = spawnSync(`${TOP}crates/${name}/out/${name}`, words, { input, maxBuffer: 1 << 28 });
  return { status, shown: stdout.toString('latin1'), told: stderr.toString('latin1') };
}

const version = number => (number === 2 ? ['2'] : []);

/** The programs by the names of the library's calls. */
export const programs = {
  replay: ({ capacity, version: number, script }) => program('lcmux', ['replay', `${capacity}`, ...version(number)], script),
  chart: ({ capacity, version: number, script }) => program('lcmux_chart', [`${capacity}`, ...version(number)], script),
  frames: bytes => program('lcmux', ['frames'], bytes),
  stream: bytes => program('lcmux_chart', ['frames'], bytes),
};
