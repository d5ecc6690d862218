// The work of a call, in steps instead of time.
import { Session } from 'node:inspector';
import { promisify } from 'node:util';

const SOURCES = new URL('../src/', import.meta.url).href;

// The cost of these grows with the array.
const MOVERS = ['shift', 'unshift', 'splice', 'indexOf', 'includes', 'slice', 'filter', 'find', 'findIndex', 'lastIndexOf'];

/** Counts the elements that arrays move or compare meanwhile. */
async function movedIn(run) {
  let moved = 0;
  const were = MOVERS.map(name => [name, Array.prototype[name]]);
  for (const [name, method] of were) {
    Array.prototype[name] = function (...words) {
      moved += this.length;
      return method.apply(this, words);
    };
  }
  try {
    await run();
  } finally {
    Object.assign(Array.prototype, Object.fromEntries(were));
  }
  return moved;
}

// V8 counts the blocks of functions that it compiles from here on, at their first call: so import this file before the
// package.
const inspector = new Session();
inspector.connect();
const post = promisify((name, words, done) => inspector.post(name, words, done));
inspector.post('Profiler.enable');
inspector.post('Profiler.startPreciseCoverage', { callCount: true, detailed: true });

/** Returns how often the blocks of these sources ran since the last such call. */
async function blocksRun(sources) {
  const { result } = await post('Profiler.takePreciseCoverage', {});
  const ranges = result.filter(({ url }) => url.startsWith(sources)).flatMap(it => it.functions).flatMap(it => it.ranges);
  return ranges.reduce((sum, { count }) => sum + count, 0);
}

/**
 * Returns how often the blocks of the package, or of other sources, ran meanwhile, and how many elements arrays
 * moved.
 */
export async function stepsOf(run, sources = SOURCES) {
  await blocksRun(sources);
  const moved = await movedIn(run);
  return moved + (await blocksRun(sources));
}
