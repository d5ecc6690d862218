// The proved library: texts in, texts out. The page has no other rules.

const SHORT = 3;

/** The initial sizes of the buffers. */
const LEAST_IN = 1 << 12;
const LEAST_OUT = 1 << 16;

const utf8 = new TextEncoder();
const latin1 = new TextDecoder('latin1');

// Copies an array into a plain one, whose length is its own, whatever the given array claims.
const encoded = input => (typeof input === 'string' ? utf8.encode(input) : new Uint8Array(input));

/** A buffer in the module's memory, which is empty until it is widened. */
class Room {
  #run;
  at = 0;
  size = 0;

  /** `run` makes a call of the module. */
  constructor(run) {
    this.#run = run;
  }

  // The old buffer is freed and cleared before the allocation, which may fail.
  widen(size) {
    if (size <= this.size) {
      return;
    }
    const old = this.at;
    this.at = this.size = 0;
    if (old !== 0) {
      this.#run('dealloc', [old]);
    }
    const at = this.#run('alloc', [size]);
    if (at === 0) {
      throw new Error(`an allocation of ${size} bytes failed`);
    }
    this.at = at;
    this.size = size;
  }
}

/** The module's memory and its calls. */
class Module {
  #calls;
  #trap = null;
  #in = new Room((name, words) => this.#run(name, words));
  #out = new Room((name, words) => this.#run(name, words));

  constructor(calls) {
    this.#calls = calls;
  }

  // After a trap the memory may be inconsistent, so no further call is made.
  #run(name, words) {
    if (this.#trap !== null) {
      throw new Error('an earlier call of the module trapped, so no further call is made', { cause: this.#trap });
    }
    try {
      return this.#calls[name](...words) >>> 0;
    } catch (trap) {
      this.#trap = trap;
      throw trap;
    }
  }

  /** Makes a call and returns its status, its output and the line of a fault. */
  call(name, words, input = []) {
    const bytes = encoded(input);
    this.#in.widen(Math.max(bytes.length, LEAST_IN));
    this.#out.widen(LEAST_OUT);
    new Uint8Array(this.#calls.memory.buffer).set(bytes, this.#in.at);
    const given = name === 'text' ? words : [...words, this.#in.at, bytes.length];
    for (;;) {
      const { at: out, size } = this.#out;
      const status = this.#run(name, [...given, out, size]);
      const [shown, told] = new Uint32Array(this.#calls.memory.buffer, this.#run('answered', []), 2);
      if (status !== SHORT) {
        const text = (at, length) => latin1.decode(new Uint8Array(this.#calls.memory.buffer, at, length));
        return { status, shown: text(out, shown), told: text(out + shown, told) };
      }
      this.#out.widen(shown + told);
    }
  }
}

/** The calls, each of which returns `{ status, shown, told }`. */
export class Library {
  #module;

  constructor(module) {
    this.#module = module;
  }

  static async from(bytes) {
    const { instance } = await WebAssembly.instantiate(bytes);
    return new Library(new Module(instance.exports));
  }

  /** Like `lcmux replay CAPACITY [2]`: the answer to each event. */
  replay({ capacity, version, script }) {
    return this.#module.call('replay', [capacity, version], script);
  }

  /** Like `lcmux_chart CAPACITY [2]`. */
  chart({ capacity, version, script }) {
    return this.#module.call('chart', [capacity, version], script);
  }

  /** The state of both peers after a script. */
  standing({ capacity, version, script }) {
    return this.#module.call('standing', [capacity, version], script);
  }

  /** Like `lcmux frames`. */
  frames(bytes) {
    return this.#module.call('frames', [], bytes);
  }

  /** The frames with their offsets. */
  places(bytes) {
    return this.#module.call('places', [], bytes);
  }

  /** Like `lcmux_chart frames`. */
  stream(bytes) {
    return this.#module.call('stream', [], bytes);
  }

  /** The sentence of a refusal's number, of a violation's number plus 100, or of a fault's plus 200. */
  sentence(code) {
    return this.#module.call('text', [code]).shown;
  }
}

const pairs = words => Object.fromEntries(words.flatMap((word, at) => (at % 2 === 0 ? [[word, words[at + 1]]] : [])));

/** Parses the state of both peers from the lines of the library. Numbers that may exceed 2^53 stay texts. */
export function standingOf(text) {
  const standing = { streams: {}, rings: {} };
  for (const line of text.split('\n').slice(0, -1)) {
    const [kind, side, ...words] = line.split(' ');
    if (kind === 'stream') {
      const { version, bytes, delivered } = pairs(words);
      standing.streams[side] = { version: Number(version), bytes: Number(bytes), delivered: Number(delivered), frames: [] };
    } else if (kind === 'frame') {
      standing.streams[side].frames.push(placeOf(words.join(' ')));
    } else {
      standing.rings[side + words[0]] = ringOf(pairs(words.slice(1)));
    }
  }
  return standing;
}

const ringOf = it => ({
  held: Number(it.held),
  wire: Number(it.wire),
  buffered: Number(it.buffered),
  room: Number(it.room),
  maySend: it['may-send'],
  mayIssue: it['may-issue'],
  asked: it.asked,
  isFinished: it.finished === '1',
  isEnded: it.ended === '1',
});

/** Parses a frame with its offsets from its line. */
export function placeOf(line) {
  const [offset, end, ...words] = line.split(' ');
  return { offset: Number(offset), end: Number(end), line: words.join(' ') };
}

export const placesOf = text => text.split('\n').slice(0, -1).map(placeOf);
