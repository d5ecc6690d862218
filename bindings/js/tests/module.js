// The module whose heap refuses a request, with its raw calls.
import { readFile } from 'node:fs/promises';
import { Module } from '../src/module.js';
import { Peer } from '../src/peer.js';

const compiled = WebAssembly.compile(await readFile(new URL('../out/refusing.wasm', import.meta.url)));

/** An instance: its raw calls, how many of them were made, the handles, and a function that makes a peer. */
export async function refusingModule() {
  const { exports } = await WebAssembly.instantiate(await compiled);
  const told = { calls: 0, handles: [] };
  const counted = Object.entries(exports).map(([name, it]) => {
    const call = (...words) => {
      told.calls += 1;
      return it(...words);
    };
    return [name, typeof it === 'function' ? call : it];
  });
  const calls = Object.fromEntries(counted);
  const { handle_new: handleNew } = calls;
  calls.handle_new = () => {
    const handle = handleNew();
    told.handles.push(handle);
    return handle;
  };
  const module = new Module(calls);
  return { exports, told, module, peer: config => new Peer(module, config) };
}

/** Makes a handle of the module invalid, so that the next call on it traps. */
export function breakHandle({ exports, told }, at) {
  new BigUint64Array(exports.memory.buffer)[told.handles[at] / 8 + 1] = 0xf000_0000n;
}
