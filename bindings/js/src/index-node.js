// The entry for Node, whose `fetch` reads no files.
import { readFile } from 'node:fs/promises';
import { entriesOf } from './library.js';

export * from './common.js';

const read = (url, signal) => (url.protocol === 'file:' ? readFile(url, { signal }) : fetch(url, { signal }));
export const { load, open } = entriesOf(read);
