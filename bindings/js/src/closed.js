import { LcmuxError } from './codes.js';

/** The sentence of each kind of end. */
const SENTENCES = {
  Local: 'the session is closed',
  Remote: 'the peer closed the session',
  Cut: "the peer's stream ended while its channels were unfinished",
  Aborted: 'the session was aborted',
  Transport: 'the transport failed',
  Stopped: "the peer's stream broke the protocol",
};

/** The error of a call that cannot proceed: the session, or the part of it that the call needs, has ended. */
export class SessionClosed extends Error {
  constructor(kind, cause) {
    const sentence = SENTENCES[kind];
    super(cause instanceof Error ? `${sentence}: ${cause.message}` : sentence, cause === undefined ? {} : { cause });
    this.kind = kind;
  }
}
Object.defineProperty(SessionClosed.prototype, 'name', { value: 'SessionClosed', configurable: true, writable: true });

/** Returns whether an error belongs to one call. Any other error means that the module trapped, or has a bug. */
export const isAnswer = error => error instanceof LcmuxError || error instanceof SessionClosed;

/** Returns the reason of a session that ends because a delivery failed. */
export function stopOf(error) {
  if (error instanceof LcmuxError && error.isStop) {
    return new SessionClosed('Stopped', error);
  }
  return new SessionClosed(error instanceof TypeError ? 'Transport' : 'Aborted', error);
}
