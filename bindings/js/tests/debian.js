// Packages of Node that scripts/setup unpacks from Debian's: webpack, rollup's plugin node-resolve, types.
import { homedir } from 'node:os';
import { join } from 'node:path';
import { fileURLToPath } from 'node:url';

export const DEBIAN = join(process.env.XDG_CACHE_HOME || join(homedir(), '.cache'), 'lcmux/debian-node/node_modules');

/** The arguments of Node that run Debian's webpack, before those of webpack. */
export const WEBPACK = ['--require', fileURLToPath(new URL('debian-config.cjs', import.meta.url)), join(DEBIAN, 'webpack-cli/bin/cli.js')];
