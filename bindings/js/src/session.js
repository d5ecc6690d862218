import { bytesOf } from './bytes.js';
import { CHANNELS } from './channel.js';
import { SessionClosed } from './closed.js';
import { boundOf, channelOf, optionsOf, signalOf, u32 } from './judge.js';
import { Link } from './link.js';
import { issuePolicyOf, policiesOf } from './policy.js';
import { LEAST_SLOTS } from './slots.js';
import { readableOf, writableOf } from './streams.js';
import { unlessAborted } from './waits.js';

const OPTIONS = ['version', 'slots', 'capacities', 'issue', 'plead', 'signal'];
const SLOTS = 64;

/** A channel of a session: what is sent on it, and what is received, which is its iteration. */
export class SessionChannel {
  #link;
  #sender;
  #receiver;
  #readable;
  #writable;

  constructor(link, channel) {
    this.#link = link;
    this.#sender = link.sender(channel);
    this.#receiver = link.receiver(channel);
  }

  async send(body, options) {
    const bytes = bytesOf(body, 'the body');
    const signal = signalOf(options);
    return this.#link.change(() => this.#sender.send(bytes, signal));
  }

  async receive(options) {
    const signal = signalOf(options);
    return this.#link.take(() => this.#receiver.receive(signal));
  }

  finish() {
    this.#link.control(() => this.#sender.finish());
  }

  limitSending(bound) {
    const most = boundOf(bound);
    this.#link.control(() => this.#sender.limit(most));
  }

  absolve(amount) {
    const given = u32(amount, 'the amount');
    this.#link.control(() => this.#sender.absolve(given));
  }

  get pleaded() {
    return this.#unlessOver(() => this.#link.control(() => this.#sender.pleaded), null);
  }

  honour() {
    return this.#link.control(() => this.#sender.honour());
  }

  get held() {
    return this.#unlessOver(() => this.#link.control(() => this.#sender.held), 0);
  }

  get room() {
    return this.#unlessOver(() => this.#link.controlRoom(() => this.#receiver.room), 0);
  }

  issue(amount) {
    const given = u32(amount, 'the amount');
    this.#link.controlRoom(() => this.#receiver.issue(given));
  }

  setIssuePolicy(policy) {
    const judged = issuePolicyOf(policy, this.#receiver.capacity);
    this.#link.controlRoom(() => this.#receiver.setPolicy(judged));
  }

  plead(target) {
    const most = u32(target, 'the target');
    this.#link.controlRoom(() => this.#receiver.plead(most));
  }

  limitReceiving(bound) {
    const most = boundOf(bound);
    this.#link.controlRoom(() => this.#receiver.limit(most));
  }

  values(options) {
    signalOf(options);
    return this.#values(options);
  }

  [Symbol.asyncIterator]() {
    return this.values();
  }

  get readable() {
    return (this.#readable ??= readableOf(this));
  }

  get writable() {
    const reasonOf = () => this.#link.reason;
    return (this.#writable ??= writableOf(this, {
      sendPart: (bytes, most, signal) => this.#link.change(() => this.#sender.sendPart(bytes, most, signal)),
      ended: this.#link.ended.then(reasonOf, reasonOf),
      abort: reason => this.#link.end(new SessionClosed('Aborted', reason)),
    }));
  }

  async *#values(options) {
    for (let message; (message = await this.receive(options)) !== null; ) {
      yield message;
    }
  }

  // A session that is over has freed its peer.
  #unlessOver(look, none) {
    return this.#link.reason === null ? look() : none;
  }
}

/** This side of a session over one ordered byte stream each way. */
export class Session {
  #link;
  #channels;

  constructor(link) {
    this.#link = link;
    this.#channels = CHANNELS.map(channel => new SessionChannel(link, channel));
  }

  channel(channel) {
    return this.#channels[channelOf(channel)];
  }

  stats(channel) {
    return this.#link.stats(channelOf(channel));
  }

  get reason() {
    return this.#link.reason;
  }

  get closed() {
    return this.#link.ended;
  }

  close(options) {
    try {
      const signal = signalOf(options);
      return unlessAborted(this.#link.close(), signal);
    } catch (error) {
      return Promise.reject(error);
    }
  }

  abort(cause) {
    this.#link.end(new SessionClosed('Aborted', cause));
  }
}
// Engines without `await using` have no such symbol.
if (Symbol.asyncDispose !== undefined) {
  Object.defineProperty(Session.prototype, Symbol.asyncDispose, {
    value: async function () {
      if (this.reason === null) {
        await this.close();
      }
    },
    configurable: true,
    writable: true,
  });
}

/** Returns the options of a session's peer, its policies, and the signal that aborts it. */
function configOf(config) {
  const { issue, plead, signal, ...bounds } = optionsOf(config, OPTIONS, 'the options of a session');
  signal?.throwIfAborted();
  const slots = u32(bounds.slots ?? SLOTS, 'slots');
  if (slots < LEAST_SLOTS) {
    throw new RangeError(`slots must be in ${LEAST_SLOTS}..=65536, got ${slots}`);
  }
  return { bounds: { ...bounds, slots }, given: { issue, plead }, signal };
}

// Aborts a session once the signal aborts.
function obey(link, signal) {
  const abort = () => link.end(new SessionClosed('Aborted', signal.reason));
  signal.addEventListener('abort', abort, { once: true });
  const forget = () => signal.removeEventListener('abort', abort);
  link.ended.then(forget, forget);
}

/** Starts a session with a peer that `make` makes. The streams belong to the session from here on. */
export function startSession(make, { readable, writable }, config) {
  const { bounds, given, signal } = configOf(config);
  const peer = make(bounds);
  let reader;
  try {
    const policies = policiesOf(given, peer);
    reader = readable.getReader();
    const link = new Link(peer, { reader, writer: writable.getWriter() }, policies);
    link.start();
    if (signal) {
      obey(link, signal);
    }
    return new Session(link);
  } catch (error) {
    reader?.releaseLock();
    peer.free();
    throw error;
  }
}
