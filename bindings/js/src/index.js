// Seven logical channels each way between two peers, over one ordered byte stream each way, with credit-based flow
// control for each channel. This is the entry for browsers; index-node.js is the one for Node.
import { entriesOf } from './library.js';

export * from './common.js';
export const { load, open } = entriesOf((url, signal) => fetch(url, { signal }));
