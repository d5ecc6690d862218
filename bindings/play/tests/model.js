// A second implementation of the rules of docs/reference/wire-format.md, with counters that are updated event by event. The
// answers of the library are compared with it.

import { CHANNELS } from '../src/words.js';

const MAX_TOTAL = 1n << 62n;
// codes: begin kinds
const KINDS = { send: 1, issue: 2, absolve: 3, plead: 4, 'limit-sending': 5, 'limit-receiving': 6, finish: 7 };
// codes: end

const sizeOf = (version, { kind, body }) =>
  1 + { send: (version === 1 ? 2 : 4) + (body?.length ?? 0) / 2, issue: 4, absolve: 4, plead: 4, 'limit-sending': 8, 'limit-receiving': 8, finish: 0 }[kind];

class Refused extends Error {
  constructor(number, name, value) {
    super(name === undefined ? `refused ${number}` : `refused ${number} ${name} ${value}`);
  }
}

const unless = (isRight, ...refusal) => {
  if (!isRight) {
    throw new Refused(...refusal);
  }
};

/** One direction of a channel, as its sender and its receiver know it. */
class Direction {
  sender = { held: 0, left: null, asked: null, isFinished: false };
  receiver;

  constructor(capacity) {
    this.receiver = { outstanding: 0, buffered: [], left: null, sendLeft: null, isFinished: false, capacity };
  }

  get buffered() {
    return this.receiver.buffered.reduce((sum, body) => sum + body.length / 2, 0);
  }

  get room() {
    return this.receiver.capacity - this.receiver.outstanding - this.buffered;
  }
}

/** Two peers, driven by the lines of a script. */
export class Model {
  #version;
  #directions;
  #streams;

  constructor(capacity, version) {
    this.#version = version;
    const greeting = version === 2 ? 4 : 0;
    const seven = () => CHANNELS.map(() => new Direction(capacity));
    this.#directions = { A: seven(), B: seven() };
    this.#streams = { A: { end: greeting, delivered: 0, frames: [], greeting }, B: { end: greeting, delivered: 0, frames: [], greeting } };
  }

  /** Returns the answer to a line. */
  step(line) {
    const [side, act, ...words] = line.split(' ');
    const other = side === 'A' ? 'B' : 'A';
    try {
      if (act === 'arrive') {
        return this.#arrive(side, other);
      }
      if (act === 'deliver') {
        return this.#deliver(side, other, Number(words[0]));
      }
      const [channel, value] = words;
      const isReceiver = ['issue', 'plead', 'limit-receiving', 'take'].includes(act);
      const direction = this.#directions[isReceiver ? other : side][channel];
      return this[act.replace('-', '_')](direction, value, frame => this.#put(side, { channel, ...frame }));
    } catch (refused) {
      if (refused instanceof Refused) {
        return refused.message;
      }
      throw refused;
    }
  }

  #put(side, frame) {
    const stream = this.#streams[side];
    const start = stream.end;
    stream.end += sizeOf(this.#version, frame);
    stream.frames.push({ ...frame, start, end: stream.end });
  }

  send({ sender }, value, put) {
    const body = value === '-' ? '' : value.toLowerCase();
    const length = body.length / 2;
    unless(!sender.isFinished, 15);
    unless(length > 0, 1);
    unless(length <= (this.#version === 1 ? 65535 : 1048576), 2);
    unless(sender.left === null || BigInt(length) <= sender.left, 3, 'left', sender.left);
    unless(length <= sender.held, 4, 'held', sender.held);
    sender.held -= length;
    sender.left = sender.left === null ? null : sender.left - BigInt(length);
    put({ kind: 'send', body });
    return 'ok';
  }

  absolve({ sender }, value, put) {
    unless(!sender.isFinished, 15);
    unless(Number(value) > 0, 5);
    unless(Number(value) <= sender.held, 6, 'held', sender.held);
    sender.held -= Number(value);
    put({ kind: 'absolve', value });
    return 'ok';
  }

  honour({ sender }, value, put) {
    unless(!sender.isFinished, 15);
    const asked = sender.asked;
    sender.asked = null;
    if (asked === null || asked >= sender.held) {
      return 'nothing to absolve';
    }
    const amount = sender.held - asked;
    sender.held = asked;
    put({ kind: 'absolve', value: amount });
    return `absolved ${amount}`;
  }

  limit_sending({ sender }, value, put) {
    const bound = BigInt(value);
    unless(!sender.isFinished, 15);
    unless(bound <= MAX_TOTAL, 7);
    unless(sender.left === null || bound <= sender.left, 8, 'left', sender.left);
    sender.left = bound;
    put({ kind: 'limit-sending', value });
    return 'ok';
  }

  finish({ sender }, value, put) {
    unless(this.#version === 2, 17);
    unless(!sender.isFinished, 15);
    Object.assign(sender, { isFinished: true, held: 0, asked: null });
    put({ kind: 'finish' });
    return 'ok';
  }

  issue(direction, value, put) {
    const { receiver } = direction;
    const amount = Number(value);
    unless(!receiver.isFinished, 15);
    unless(amount > 0, 5);
    unless(receiver.left === null || BigInt(amount) <= receiver.left, 9, 'left', receiver.left);
    unless(amount <= direction.room, 10, 'room', direction.room);
    receiver.outstanding += amount;
    receiver.left = receiver.left === null ? null : receiver.left - BigInt(amount);
    put({ kind: 'issue', value });
    return 'ok';
  }

  plead({ receiver }, value, put) {
    unless(!receiver.isFinished, 15);
    unless(Number(value) < receiver.outstanding, 11, 'outstanding', receiver.outstanding);
    put({ kind: 'plead', value });
    return 'ok';
  }

  limit_receiving({ receiver }, value, put) {
    const bound = BigInt(value);
    unless(!receiver.isFinished, 15);
    unless(bound <= MAX_TOTAL, 7);
    unless(receiver.left === null || bound <= receiver.left, 8, 'left', receiver.left);
    receiver.left = bound;
    put({ kind: 'limit-receiving', value });
    return 'ok';
  }

  take({ receiver }) {
    const body = receiver.buffered.shift();
    return body === undefined ? (receiver.isFinished || receiver.sendLeft === 0n ? 'ended' : 'empty') : `took ${body}`;
  }

  #arrive(side, other) {
    const stream = this.#streams[other];
    const next = stream.frames.find(({ end }) => end > stream.delivered);
    if (next === undefined) {
      return 'nothing in flight';
    }
    this.#deliverTo(next.end, side, other);
    return 'arrived';
  }

  #deliver(side, other, count) {
    const stream = this.#streams[other];
    const left = stream.end - stream.delivered;
    if (left === 0) {
      return 'nothing in flight';
    }
    const bytes = Math.min(left, count);
    return `delivered ${bytes} bytes ${this.#deliverTo(stream.delivered + bytes, side, other)} frames`;
  }

  #deliverTo(place, side, other) {
    const stream = this.#streams[other];
    const came = stream.frames.filter(({ end }) => end > stream.delivered && end <= place);
    stream.delivered = place;
    came.forEach(frame => this.#land(frame, side, other));
    return came.length;
  }

  // Applies an inbound frame: a frame of the peer's receiver concerns the sender of this side.
  #land({ kind, channel, value, body }, side, other) {
    const { sender } = this.#directions[side][channel];
    const { receiver } = this.#directions[other][channel];
    const acts = {
      issue: () => (sender.held += sender.isFinished ? 0 : Number(value)),
      plead: () => (sender.asked = sender.isFinished ? null : Number(value)),
      'limit-receiving': () => {},
      send: () => {
        receiver.outstanding -= body.length / 2;
        receiver.buffered.push(body);
        receiver.sendLeft = receiver.sendLeft === null ? null : receiver.sendLeft - BigInt(body.length / 2);
      },
      absolve: () => (receiver.outstanding -= Number(value)),
      'limit-sending': () => (receiver.sendLeft = BigInt(value)),
      finish: () => Object.assign(receiver, { isFinished: true, outstanding: 0 }),
    };
    acts[kind]();
  }

  /** Returns the state of both peers, in the form of the library. */
  standing() {
    return ['A', 'B'].map(side => this.#streamOf(side)).join('') + ['A', 'B'].map(side => this.#directions[side].map((it, channel) => ringOf(side, channel, it)).join('')).join('');
  }

  #streamOf(side) {
    const { end, delivered, frames, greeting } = this.#streams[side];
    const first = delivered < greeting ? `frame ${side} 0 4 greeting\n` : '';
    const flying = frames.filter(it => it.end > delivered).map(it => `frame ${side} ${it.start} ${it.end} ${lineOf(it)}\n`);
    return `stream ${side} version ${this.#version} bytes ${end} delivered ${delivered}\n${first}${flying.join('')}`;
  }
}

const lineOf = ({ kind, channel, value, body }) => [kind, channel, ...(body === undefined ? (value === undefined ? [] : [value]) : [body])].join(' ');

function ringOf(side, channel, { sender, receiver, buffered, room }) {
  const shown = number => number ?? '-';
  const isEnded = receiver.isFinished || receiver.sendLeft === 0n;
  const parts = `held ${sender.held} wire ${receiver.outstanding - sender.held} buffered ${buffered} room ${room}`;
  const bounds = `may-send ${shown(sender.left)} may-issue ${shown(receiver.left)} asked ${shown(sender.asked)}`;
  return `ring ${side} ${channel} ${parts} ${bounds} finished ${Number(sender.isFinished)} ended ${Number(isEnded)}\n`;
}

/** Returns the frames of a stream as lines with their offsets, and the line of the fault after them. */
export function framesOf(bytes) {
  const view = new DataView(bytes.buffer, bytes.byteOffset, bytes.length);
  const greeting = [0x4c, 0x43, 0x4d, 0x02];
  const told = (number, at, culprit = '') => `lcmux: F${number} in the frame at byte ${at}${culprit}\n`;
  const byteAt = place => `: 0x${bytes[place].toString(16).padStart(2, '0')}`;
  const lines = [];
  let [version, at] = [1, 0];
  if (bytes[0] === 0x4c) {
    const same = greeting.findIndex((byte, place) => bytes[place] !== byte);
    if (same >= 0) {
      return { lines, told: same < bytes.length ? told(1, 0, byteAt(same)) : told(4, 0) };
    }
    [version, at] = [2, 4];
  }
  for (let end; at < bytes.length; at = end) {
    const [kind, channel] = [Object.keys(KINDS)[(bytes[at] >> 4) - 1], bytes[at] & 15];
    if (kind === undefined || channel > 6 || (kind === 'finish' && version === 1)) {
      return { lines, told: told(1, at, byteAt(at)) };
    }
    const width = { send: version === 1 ? 2 : 4, issue: 4, absolve: 4, plead: 4, 'limit-sending': 8, 'limit-receiving': 8, finish: 0 }[kind];
    if (at + 1 + width > bytes.length) {
      return { lines, told: told(4, at) };
    }
    const number = { 0: () => null, 2: () => BigInt(view.getUint16(at + 1)), 4: () => BigInt(view.getUint32(at + 1)), 8: () => view.getBigUint64(at + 1) }[width]();
    const least = kind === 'send' || kind === 'issue' || kind === 'absolve' ? 1n : 0n;
    const most = kind === 'send' ? (version === 1 ? 65535n : 1048576n) : width === 8 ? MAX_TOTAL : 16777216n;
    if (number !== null && (number < least || number > most)) {
      return { lines, told: told(kind === 'send' && number === 0n ? 2 : 3, at, `: ${kind} ${channel} ${number}`) };
    }
    end = at + 1 + width + (kind === 'send' ? Number(number) : 0);
    if (end > bytes.length) {
      return { lines, told: told(4, at) };
    }
    const body = Array.from(bytes.subarray(at + 1 + width, end), byte => byte.toString(16).padStart(2, '0')).join('');
    lines.push(`${at} ${end} ${lineOf({ kind, channel, value: number ?? undefined, body: kind === 'send' ? body : undefined })}\n`);
  }
  return { lines, told: '' };
}
