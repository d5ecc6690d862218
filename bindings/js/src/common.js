// What the package exports in every environment.
export { CHANNELS, Channel } from './channel.js';
export { Code, LcmuxError } from './codes.js';
export { VERSION } from './module.js';
export { ENDED, Peer } from './peer.js';
export { SessionClosed } from './closed.js';
export { Session, SessionChannel } from './session.js';
export { fromWebSocket } from './websocket.js';
