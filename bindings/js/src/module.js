import { copyTo, part, sizeOf } from './bytes.js';
import { Code, LcmuxError, errorOf } from './codes.js';

/** The version of the package, and of the module that it accepts. */
export const VERSION = '0.1.0';

const numberOf = version => version.split('.').reduce((number, part) => number * 256 + Number(part), 0);

/** Compiles a module from its bytes, or from a response with them. */
async function compiled(source) {
  if (source instanceof WebAssembly.Module) {
    return source;
  }
  const isResponse = typeof Response === 'function' && source instanceof Response;
  if (isResponse && !source.ok) {
    throw new Error(`${source.url}: status ${source.status}`);
  }
  return WebAssembly.compile(isResponse ? await source.arrayBuffer() : source);
}

/** An instance of the module, with its own memory. */
export class Module {
  #calls;
  #memory;
  #answered;
  #bytes = new Uint8Array(0);
  #longs;
  #words;
  #trap = null;
  #lost = new FinalizationRegistry(handle => this.drop(handle));

  constructor(exports) {
    this.#calls = exports;
    this.#memory = exports.memory;
    this.#look();
    this.#answered = this.#run(exports.answered) / 8;
    this.place = this.#run(exports.place_at);
    this.room = this.#run(exports.place_len);
  }

  static async from(source) {
    const { exports } = await WebAssembly.instantiate(await compiled(source));
    const module = new Module(exports);
    if (module.version !== numberOf(VERSION)) {
      throw new Error(`the module must have version ${VERSION}, got 0x${module.version.toString(16)}`);
    }
    return module;
  }

  /** Whether a call trapped. */
  get hasTrapped() {
    return this.#trap !== null;
  }

  get version() {
    return this.#run(this.#calls.version);
  }

  // A memory that grew has a new buffer, and the old one is empty.
  #look() {
    if (this.#bytes.length === 0) {
      this.#bytes = new Uint8Array(this.#memory.buffer);
      this.#longs = new BigUint64Array(this.#memory.buffer);
      this.#words = new Uint32Array(this.#memory.buffer);
    }
  }

  // After a trap the memory may be inconsistent, so no further call is made.
  #run(call, a, b, c) {
    if (this.#trap !== null) {
      throw new Error('an earlier call of the module trapped, so no further call is made', { cause: this.#trap });
    }
    try {
      return call(a, b, c) >>> 0;
    } catch (trap) {
      this.#trap = trap;
      throw trap;
    } finally {
      this.#look();
    }
  }

  /** Makes the call of this name and returns its code. */
  call(name, a, b, c) {
    return this.#run(this.#calls[name], a, b, c);
  }

  /** Makes the call of this name and throws every code but 0. */
  done(name, a, b, c) {
    const code = this.call(name, a, b, c);
    if (code !== 0) {
      throw this.error(code);
    }
  }

  /** Returns the u64 at an index of the last result, 0 being its number. */
  long(at) {
    return this.#longs[this.#answered + at];
  }

  /** Returns the same for a number below 2^32, such as each length, count and address. */
  short(at) {
    return this.#words[2 * (this.#answered + at)];
  }

  /** The number of the last result, if it is below 2^32. */
  get number() {
    return this.short(0);
  }

  error(code) {
    return errorOf(code, this.long(0));
  }

  /** Copies bytes to the module's buffer and returns how many they are. */
  put(bytes) {
    const size = sizeOf(bytes);
    if (size > this.room) {
      throw new RangeError(`the buffer of the module has ${this.room} bytes, got ${size}`);
    }
    copyTo(this.#bytes, this.place, bytes);
    return size;
  }

  /** Returns a view of the bytes at an address, valid until the next call. */
  view(at, length) {
    return part(this.#bytes, at, at + length);
  }

  /** Returns a view of the first bytes of the module's buffer, valid until the next call. */
  lent(length) {
    return this.view(this.place, length);
  }

  /** Copies numbers of 32 bits to the module's buffer. */
  putWords(words) {
    new Uint32Array(this.#memory.buffer, this.place, words.length).set(words);
  }

  /** Returns the sentence of a code. */
  text(code) {
    this.done('text', code);
    return String.fromCharCode(...this.lent(this.number));
  }

  /** Makes a handle for an object. It is freed at the latest once the object is unreachable. */
  handleFor(owner, make) {
    const handle = this.call('handle_new');
    if (handle === 0) {
      throw new LcmuxError(Code.OutOfMemory);
    }
    try {
      make(handle);
    } catch (error) {
      this.drop(handle);
      throw error;
    }
    this.#lost.register(owner, handle, owner);
    return handle;
  }

  /** Frees the handle of an object that is not used again. */
  free(owner, handle) {
    this.#lost.unregister(owner);
    this.drop(handle);
  }

  drop(handle) {
    if (!this.hasTrapped) {
      this.call('peer_free', handle);
      this.call('handle_free', handle);
    }
  }
}
