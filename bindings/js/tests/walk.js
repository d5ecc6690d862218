// The walk of walk.c over the module: `node tests/walk.js STEPS` prints the same.
import { CHANNELS, ENDED, LcmuxError, load } from 'lcmux';
import { pathToFileURL } from 'node:url';

const NONE = 2n ** 64n - 1n;
const EMPTY = [48, 0n];
const IS_ENDED = [49, 0n];
const NEEDS = { nothing: [0, 0n], slot: [13, 0n], never: [50, 0n] };

/** A walk: `step` makes one step, and the hash covers all answers and bytes. */
class Walk {
  #lcmux;
  #seed = 2463534242 | 0;
  #hash = 2166136261 | 0;
  #peers = [];
  #wires = [];
  /** How often each code was returned. */
  codes = new Map();

  constructor(lcmux) {
    this.#lcmux = lcmux;
  }

  get hash() {
    return (this.#hash >>> 0).toString(16).padStart(8, '0');
  }

  #below(most) {
    this.#seed ^= this.#seed << 13;
    this.#seed ^= this.#seed >>> 17;
    this.#seed ^= this.#seed << 5;
    return (this.#seed >>> 0) % most;
  }

  #mix(word) {
    this.#hash = Math.imul(this.#hash ^ word, 16777619);
  }

  #mixLong(number) {
    this.#mix(Number(number & 0xffffffffn));
    this.#mix(Number(number >> 32n));
  }

  #answer([code, number]) {
    this.codes.set(code, (this.codes.get(code) ?? 0) + 1);
    this.#mix(code);
    this.#mixLong(BigInt(number));
  }

  // Returns the result of a call, or its refusal.
  #asked(call) {
    try {
      const answer = call();
      return answer instanceof LcmuxError ? [answer.code, answer.number ?? 0n] : [0, answer ?? 0n];
    } catch (error) {
      if (!(error instanceof LcmuxError)) {
        throw error;
      }
      return [error.code, error.number ?? 0n];
    }
  }

  #anew() {
    const [version, slots] = [1 + this.#below(2), 1 + this.#below(40)];
    const capacities = CHANNELS.map(() => 1 + this.#below(300));
    for (const side of [0, 1]) {
      this.#peers[side]?.free();
      this.#peers[side] = this.#lcmux.peer({ version, slots, capacities });
      this.#wires[side] = new Uint8Array(0);
      this.#answer([0, 0n]);
    }
  }

  #deliver(peer, bytes) {
    let [code, taken, frames] = [0, bytes.length, 0];
    try {
      frames = peer.deliver(bytes);
    } catch (error) {
      ({ code, taken, frames } = error);
    }
    this.codes.set(code, (this.codes.get(code) ?? 0) + 1);
    this.#mix(code);
    this.#mixLong(BigInt(taken));
    this.#mixLong(BigInt(frames));
    return taken;
  }

  #own(peer, kind, channel, amount) {
    const bound = (BigInt(amount) << 32n) | BigInt(amount);
    const calls = [
      () => peer.issue(channel, amount),
      () => peer.absolve(channel, amount),
      () => peer.plead(channel, amount),
      () => peer.honour(channel),
      () => peer.limitSending(channel, bound),
      () => peer.limitReceiving(channel, bound),
      () => peer.finish(channel),
      () => peer.wouldSend(channel, amount),
      () => peer.wouldIssue(channel, amount),
      () => peer.wouldAbsolve(channel, amount),
      () => peer.wouldPlead(channel, amount),
      () => peer.wouldHonour(channel),
      () => peer.wouldLimitSending(channel, bound),
      () => peer.wouldLimitReceiving(channel, bound),
      () => peer.wouldFinish(channel),
    ];
    if (kind < calls.length) {
      this.#answer(this.#asked(calls[kind]));
    } else {
      const needs = peer.needs(channel, amount);
      this.#answer(NEEDS[needs.kind] ?? [4, needs.missing]);
    }
  }

  #look(peer, kind, channel) {
    const looks = [
      () => this.#book(peer.client(channel)),
      () => this.#book(peer.server(channel)),
      () => this.#book(Object.fromEntries(peer.ready().flatMap((it, at) => Object.entries(it).map(([name, is]) => [at + name, is])))),
      () => this.#answer([0, peer.pending()]),
      () => this.#answer([0, peer.slotsLeft()]),
      () => this.#answer([0, Number(peer.wantsWrite())]),
      () => this.#answer(this.#taken(peer.frontLength(channel))),
      () => this.#answer(this.#asked(() => peer.end())),
    ];
    looks[kind]();
  }

  #book(book) {
    this.#answer([0, 0n]);
    Object.values(book).forEach(it => this.#mixLong(it === null ? NONE : BigInt(it)));
  }

  #taken(answer) {
    return answer === null ? EMPTY : answer === ENDED ? IS_ENDED : [0, answer];
  }

  #send(peer, channel, length, step) {
    this.#answer(this.#asked(() => peer.send(channel, Uint8Array.from({ length }, (_, at) => step + at))));
  }

  #take(peer, channel, length) {
    const buffer = new Uint8Array(40 + length);
    let answer;
    const [code, number] = this.#asked(() => {
      answer = peer.takeInto(channel, buffer);
    });
    this.#answer(code === 0 ? this.#taken(answer) : [code, number]);
    if (code === 0 && typeof answer === 'number') {
      buffer.subarray(0, answer).forEach(byte => this.#mix(byte));
    }
  }

  #write(side, length) {
    const bytes = this.#peers[side].write(length);
    this.#answer([0, bytes.length]);
    bytes.forEach(byte => this.#mix(byte));
    this.#wires[side] = Uint8Array.of(...this.#wires[side], ...bytes);
  }

  #carry(side, length) {
    const other = 1 - side;
    const wire = this.#wires[other];
    this.#wires[other] = wire.subarray(this.#deliver(this.#peers[side], wire.subarray(0, length)));
  }

  #noise(side, length) {
    const bytes = Uint8Array.from({ length: 512 }, (_, at) => (at < length ? this.#below(256) : 0));
    if (this.#below(4) !== 0) {
      const tag = 16 * (1 + this.#below(7)) + this.#below(CHANNELS.length);
      bytes.set([tag, 0, this.#below(2), 0, this.#below(256), 0, 0, 0, 1]);
    }
    this.#deliver(this.#peers[side], bytes.subarray(0, length));
  }

  step(step) {
    if (step % 2000 === 0) {
      this.#anew();
    }
    const [side, act, channel, length, kind] = [2, 100, CHANNELS.length, 80, 64].map(most => this.#below(most));
    const peer = this.#peers[side];
    if (act < 22) {
      this.#send(peer, channel, length, step);
    } else if (act < 35) {
      this.#take(peer, channel, length);
    } else if (act < 52) {
      this.#own(peer, 0, channel, length);
    } else if (act < 60) {
      this.#own(peer, kind < 14 && kind > 3 && this.#below(30) ? 3 : kind % 16, channel, length);
    } else if (act < 76) {
      this.#write(side, 4 * length);
    } else if (act < 93) {
      this.#carry(side, 4 * length);
    } else if (act < 99) {
      this.#look(peer, kind % 8, channel);
    } else if (this.#below(10) === 0) {
      this.#noise(side, length);
    }
  }
}

/** Makes this many steps: the lines, and how often each code was returned. */
export function walk(lcmux, steps) {
  const it = new Walk(lcmux);
  const lines = [];
  for (let step = 0; step < steps; step += 1) {
    it.step(step);
    if (step % 100_000 === 99_999) {
      lines.push(`${step + 1} ${it.hash}`);
    }
  }
  return { lines, codes: it.codes };
}

if (import.meta.url === pathToFileURL(process.argv[1] ?? '').href) {
  const { lines, codes } = walk(await load(), Number(process.argv[2] ?? 300_000));
  console.log(lines.join('\n'));
  console.error([...codes].sort(([a], [b]) => a - b).map(([code, count]) => `${code}: ${count}`).join(', '));
}
