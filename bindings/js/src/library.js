import { Code, LcmuxError } from './codes.js';
import { signalOf, u32 } from './judge.js';
import { Module } from './module.js';
import { Peer } from './peer.js';
import { startSession } from './session.js';
import { unlessAborted } from './waits.js';

/**
 * Returns the address of the package's own module. webpack and Vite find the file by this expression and copy it; in a
 * script that is no ES module `import.meta` has no address.
 */
function ownAddress() {
  try {
    return new URL('../out/lcmux.wasm', import.meta.url);
  } catch (cause) {
    throw new Error('this bundle has no address of lcmux.wasm: pass the module to load', { cause });
  }
}

const openIn = (module, streams, config) => startSession(bounds => new Peer(module, bounds), streams, config);

/** An instance of the module. Its peers share a memory, and all end if one of its calls traps. */
class Library {
  #module;

  constructor(module) {
    this.#module = module;
  }

  get version() {
    return this.#module.version;
  }

  get hasTrapped() {
    return this.#module.hasTrapped;
  }

  text(code) {
    return this.#module.text(u32(code, 'the code'));
  }

  peer(config) {
    return new Peer(this.#module, config);
  }

  open(streams, config) {
    return openIn(this.#module, streams, config);
  }
}

// The rings of a peer that has to fit beside a session: some 120 MiB, since the sessions of a module queue messages there.
const SPARE = { slots: 1, capacities: 1 << 24 };

/**
 * The modules of `open`. A session goes into the first one whose memory has space for it. One that is not the last
 * stays only as long as a session uses it.
 */
class Modules {
  #make;
  #last = null;
  #all = [];
  #used = new WeakSet();
  // The promise of a module that is being made.
  #making = null;

  constructor(make) {
    this.#make = make;
  }

  async open(streams, config) {
    const signal = config?.signal ?? undefined;
    signal?.throwIfAborted();
    for (;;) {
      const session = this.#openInAny(streams, config);
      if (session !== null) {
        return session;
      }
      const module = await unlessAborted(this.#added(), signal);
      if (!this.#used.has(module)) {
        return this.#openIn(module, streams, config);
      }
    }
  }

  // Returns null if no module has space.
  #openInAny(streams, config) {
    for (const module of this.#whole()) {
      try {
        new Peer(module, SPARE).free();
        return this.#openIn(module, streams, config);
      } catch (error) {
        if (!(error instanceof LcmuxError) || error.code !== Code.OutOfMemory) {
          throw error;
        }
      }
    }
    return null;
  }

  #openIn(module, streams, config) {
    const session = openIn(module, streams, config);
    this.#used.add(module);
    return session;
  }

  // The modules that are still used, or the last one, and of which no call trapped.
  #whole() {
    this.#all = this.#all.filter(it => it.deref()?.hasTrapped === false);
    return this.#all.map(it => it.deref());
  }

  #added() {
    this.#making ??= this.#add().finally(() => (this.#making = null));
    return this.#making;
  }

  async #add() {
    this.#last = await this.#make();
    this.#all.push(new WeakRef(this.#last));
    return this.#last;
  }
}

/** Returns `load` and `open`, for an environment where `read` fetches the bytes of a URL, or a response with them. */
export function entriesOf(read) {
  const moduleOf = async (source, signal) => {
    const given = await source;
    return Module.from(given instanceof URL ? await read(given, signal) : given);
  };
  const modules = new Modules(async () => moduleOf(ownAddress()));
  return {
    async load(source = ownAddress(), options = undefined) {
      const signal = signalOf(options);
      return new Library(await unlessAborted(moduleOf(source, signal), signal));
    },
    open: (streams, config) => modules.open(streams, config),
  };
}
