import { bytesOf, copyTo, part, sizeOf } from './bytes.js';
import { CHANNELS } from './channel.js';
import { Code, LcmuxError, protocolErrorOf } from './codes.js';
import { boundOf, channelOf, lengthOf, optionsOf, u32 } from './judge.js';

/** The result of a take if no message is available and none will arrive. */
export const ENDED = Symbol('ended');

/** The most bytes that one call of the module moves. */
const PIECE = 65_536;

/** The most bytes of a chunk. */
const CHUNK = 16_384;

/** Stands for a limit that is not set, and for the target of a plead if none is pending. */
const NONE = 2n ** 64n - 1n;

/**
 * Names the balances of a channel's ring that a session asks for after each delivery: `peer[RING](channel)`. None of
 * them has to be a BigInt.
 */
export const RING = Symbol('ring');

/** Names the channels on which a plead is pending: `peer[PLEADED]()`. */
export const PLEADED = Symbol('pleaded');

/** The index of the struct in a result, that behind the size with which some begin, and the length of one channel's
 * `ready`. */
const STRUCT = 2;
const SIZED = STRUCT + 1;
const READY = 5;

/** Where the plead is in that. */
const PLEAD = 2;

const DEFAULTS = { version: 1, slots: 16, capacities: 65_536 };

const NEEDS = {
  nothing: Object.freeze({ kind: 'nothing' }),
  slot: Object.freeze({ kind: 'slot' }),
  never: Object.freeze({ kind: 'never' }),
};

const unlessNone = long => (long === NONE ? null : long);

/** Returns a configuration with a value for each key. */
function configOf(given) {
  return { ...DEFAULTS, ...optionsOf(given, Object.keys(DEFAULTS), 'the options of a peer') };
}

/** Returns a capacity for each channel. An array is read by index, whatever its iterator yields. */
function ringsOf(capacities) {
  const isOne = !Array.isArray(capacities);
  if (!isOne && capacities.length !== CHANNELS.length) {
    throw new RangeError(`there must be one capacity or ${CHANNELS.length}, got ${capacities.length}`);
  }
  return CHANNELS.map(channel => u32(isOne ? capacities : capacities[channel], 'a capacity'));
}

/** Returns the words of an lcmux_config. */
function wordsOf(config) {
  const { version, slots, capacities } = configOf(config);
  return [u32(version, 'the version'), u32(slots, 'slots'), ...ringsOf(capacities)];
}

/** Names the refused value of a configuration in the message of the error. */
function named(error, [version, slots, ...capacities]) {
  const { code, number } = error;
  if (code === Code.BadVersion) {
    error.message = `the version must be 1 or 2, got ${version}`;
  } else if (code === Code.BadCapacity) {
    error.message = `the capacity of channel ${number} must be in 1..=16777216, got ${capacities[number]}`;
  } else if (code === Code.BadSlots) {
    error.message = `slots must be in 1..=65536, got ${slots}`;
  }
  return error;
}

/** One side of a session: bytes in by `deliver`, bytes out by `write`. A refused call throws. */
export class Peer {
  #module;
  #handle;
  #version;
  // The bytes that were fetched as a chunk and not yet advanced over.
  #unsent = new Uint8Array(0);

  /** Called by `Library.peer`. */
  constructor(module, config) {
    const words = wordsOf(config);
    this.#module = module;
    this.#version = words[0];
    this.#handle = module.handleFor(this, handle => {
      module.putWords(words);
      const code = module.call('peer_new', handle);
      if (code !== 0) {
        throw named(module.error(code), words);
      }
    });
  }

  get version() {
    return this.#version;
  }

  get #there() {
    if (this.#handle === 0) {
      throw new LcmuxError(Code.NoPeer);
    }
    return this.#handle;
  }

  // Makes a call on this peer and returns its code.
  #ask(name, a, b) {
    return this.#module.call(name, this.#there, a, b);
  }

  #do(name, a, b) {
    const code = this.#ask(name, a, b);
    if (code !== 0) {
      throw this.#module.error(code);
    }
  }

  #number(name, a) {
    this.#do(name, a);
    return this.#module.number;
  }

  #refusal(name, a, b) {
    const code = this.#ask(name, a, b);
    return code === 0 ? null : this.#module.error(code);
  }

  send(channel, body) {
    const number = channelOf(channel);
    const bytes = bytesOf(body, 'the body');
    if (sizeOf(bytes) > this.#module.room) {
      throw this.wouldSend(channel, sizeOf(bytes));
    }
    this.#do('peer_send', number, this.#module.put(bytes));
  }

  issue(channel, amount) {
    this.#do('peer_issue', channelOf(channel), u32(amount, 'the amount'));
  }

  absolve(channel, amount) {
    this.#do('peer_absolve', channelOf(channel), u32(amount, 'the amount'));
  }

  plead(channel, target) {
    this.#do('peer_plead', channelOf(channel), u32(target, 'the target'));
  }

  honour(channel) {
    return this.#number('peer_honour', channelOf(channel));
  }

  limitSending(channel, bound) {
    this.#do('peer_limit_sending', channelOf(channel), boundOf(bound));
  }

  limitReceiving(channel, bound) {
    this.#do('peer_limit_receiving', channelOf(channel), boundOf(bound));
  }

  finish(channel) {
    this.#do('peer_finish', channelOf(channel));
  }

  wouldSend(channel, length) {
    return this.#refusal('peer_would_send', channelOf(channel), lengthOf(length));
  }

  wouldIssue(channel, amount) {
    return this.#refusal('peer_would_issue', channelOf(channel), u32(amount, 'the amount'));
  }

  wouldAbsolve(channel, amount) {
    return this.#refusal('peer_would_absolve', channelOf(channel), u32(amount, 'the amount'));
  }

  wouldPlead(channel, target) {
    return this.#refusal('peer_would_plead', channelOf(channel), u32(target, 'the target'));
  }

  wouldHonour(channel) {
    return this.#refusal('peer_would_honour', channelOf(channel)) ?? this.#module.number;
  }

  wouldLimitSending(channel, bound) {
    return this.#refusal('peer_would_limit_sending', channelOf(channel), boundOf(bound));
  }

  wouldLimitReceiving(channel, bound) {
    return this.#refusal('peer_would_limit_receiving', channelOf(channel), boundOf(bound));
  }

  wouldFinish(channel) {
    return this.#refusal('peer_would_finish', channelOf(channel));
  }

  needs(channel, length) {
    const code = this.#ask('peer_needs', channelOf(channel), lengthOf(length));
    switch (code) {
      case 0:
        return NEEDS.nothing;
      case Code.NoGuarantee:
        return { kind: 'guarantees', missing: this.#module.number };
      case Code.QueueFull:
        return NEEDS.slot;
      case Code.Never:
        return NEEDS.never;
      default:
        throw this.#module.error(code);
    }
  }

  slotsLeft() {
    return this.#number('peer_slots_left');
  }

  wantsWrite() {
    return this.#number('peer_wants_write') !== 0 || this.#unsent.length > 0;
  }

  ready() {
    this.#do('peer_ready');
    return CHANNELS.map(channel => {
      const isTrue = at => this.#short(READY * channel + at) !== 0;
      return { message: isTrue(0), ended: isTrue(1), plead: isTrue(PLEAD), finished: isTrue(3), finishedThere: isTrue(4) };
    });
  }

  deliver(bytes) {
    const whole = bytesOf(bytes, 'the delivered chunk');
    const size = sizeOf(whole);
    let [taken, frames] = [0, 0];
    do {
      const piece = taken === 0 && size <= PIECE ? whole : part(whole, taken, taken + PIECE);
      const code = this.#ask('peer_deliver', this.#module.put(piece));
      taken += this.#module.number;
      frames += this.#module.short(1);
      if (code !== 0) {
        throw Object.assign(this.#stopped(code), { taken, frames });
      }
    } while (taken < size);
    return frames;
  }

  end() {
    const code = this.#ask('peer_end');
    if (code !== 0) {
      throw this.#stopped(code);
    }
  }

  // The protocol error of this code, with its place in the stream.
  #stopped(code) {
    this.#do('peer_error');
    return protocolErrorOf(code, [1, 2, 3, 4, 5, 6].map(at => unlessNone(this.#long(at))));
  }

  pending() {
    return this.#number('peer_pending') + this.#unsent.length;
  }

  writeInto(buffer) {
    const target = bytesOf(buffer, 'the buffer');
    const length = sizeOf(target);
    const unsent = this.#unsent.subarray(0, length);
    copyTo(target, 0, unsent);
    let count = unsent.length;
    while (count < length) {
      const piece = Math.min(PIECE, length - count);
      const wrote = this.#number('peer_write', piece);
      copyTo(target, count, this.#module.lent(wrote));
      count += wrote;
      if (wrote < piece) {
        break;
      }
    }
    this.#unsent = this.#unsent.subarray(unsent.length);
    return count;
  }

  write(most = Infinity) {
    const bytes = new Uint8Array(Math.min(this.pending(), most === Infinity ? most : u32(most, 'the most')));
    this.writeInto(bytes);
    return bytes;
  }

  chunk() {
    if (this.#there && this.#unsent.length === 0) {
      this.#unsent = this.write(CHUNK);
    }
    return this.#unsent.slice();
  }

  advance(count) {
    const offered = this.#there && this.#unsent.length;
    if (u32(count, 'the count') > offered) {
      throw new RangeError(`${count} bytes claimed, but only ${offered} offered`);
    }
    this.#unsent = this.#unsent.subarray(count);
  }

  frontLength(channel) {
    return this.#took(this.#ask('peer_front_len', channelOf(channel)), length => length);
  }

  front(channel) {
    return this.#took(this.#ask('peer_front', channelOf(channel)), () => [this.#piece(0), this.#piece(2)]);
  }

  // A view of one piece of the borrowed message, from its address and its length.
  #piece(from) {
    return this.#module.view(this.#module.short(STRUCT + from), this.#module.short(STRUCT + from + 1));
  }

  pop(channel) {
    return this.#took(this.#ask('peer_pop', channelOf(channel)), length => length);
  }

  take(channel) {
    const code = this.#ask('peer_take', channelOf(channel), this.#module.room);
    return this.#took(code, length => this.#module.lent(length).slice());
  }

  takeInto(channel, buffer) {
    const number = channelOf(channel);
    const target = bytesOf(buffer, 'the buffer');
    const room = Math.min(sizeOf(target), this.#module.room);
    return this.#took(this.#ask('peer_take', number, room), length => {
      copyTo(target, 0, this.#module.lent(length));
      return length;
    });
  }

  // Converts the code of a take.
  #took(code, answer) {
    switch (code) {
      case 0:
        return answer(this.#module.number);
      case Code.Empty:
        return null;
      case Code.Ended:
        return ENDED;
      default:
        throw this.#module.error(code);
    }
  }

  // A u64 of the struct of the last result, behind its size, and one that is below 2^32.
  #long(at) {
    return this.#module.long(SIZED + at);
  }

  #short(at) {
    return this.#module.short(SIZED + at);
  }

  client(channel) {
    this.#do('peer_client', channelOf(channel));
    return {
      held: this.#short(0),
      received: this.#long(1),
      spent: this.#long(2),
      absolved: this.#long(3),
      waived: this.#long(4),
      sendLeft: unlessNone(this.#long(5)),
      receiveLeft: unlessNone(this.#long(6)),
      asked: this.#long(7) === NONE ? null : this.#short(7),
      finished: this.#short(8) !== 0,
    };
  }

  server(channel) {
    this.#do('peer_server', channelOf(channel));
    return {
      capacity: this.#short(0),
      issued: this.#long(1),
      received: this.#long(2),
      taken: this.#long(3),
      absolved: this.#long(4),
      outstanding: this.#short(5),
      buffered: this.#short(6),
      room: this.#short(7),
      waived: this.#long(8),
      sendLeft: unlessNone(this.#long(9)),
      receiveLeft: unlessNone(this.#long(10)),
      finished: this.#short(11) !== 0,
    };
  }

  [RING](channel) {
    this.#do('peer_server', channel);
    return {
      outstanding: this.#short(5),
      buffered: this.#short(6),
      room: this.#short(7),
      finished: this.#short(11) !== 0,
    };
  }

  [PLEADED]() {
    this.#do('peer_ready');
    return CHANNELS.filter(channel => this.#short(READY * channel + PLEAD) !== 0);
  }

  free() {
    const handle = this.#handle;
    if (handle !== 0) {
      this.#handle = 0;
      this.#module.free(this, handle);
    }
  }
}
