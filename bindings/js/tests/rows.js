// The worked examples and hostile bytes of bindings/rows.txt, in Node and in browsers.
import { ENDED, LcmuxError } from '../src/index.js';

const hex = bytes => Array.from(bytes, byte => byte.toString(16).padStart(2, '0')).join('') || '-';
const unhex = text => Uint8Array.from(text === '-' ? [] : text.match(/../g), byte => parseInt(byte, 16));

// The names of the numbers that refusals carry, by docs/reference/errors.md.
const CARRIED = { 3: 'left', 4: 'held', 6: 'held', 8: 'left', 9: 'left', 10: 'room', 11: 'outstanding', 16: 'need' };

// The kinds of frames, by docs/reference/wire-format.md.
const KINDS = [, 'Send', 'Issue', 'Absolve', 'Plead', 'LimitSending', 'LimitReceiving', 'Finish'];

function said(error) {
  if (error instanceof RangeError && error.message.startsWith('the channel')) {
    return 'no channel';
  }
  if (!(error instanceof LcmuxError)) {
    throw error;
  }
  const { code, number } = error;
  if (code > 200) {
    return `fault F${code - 200}`;
  }
  return code > 100 ? `violation V${code - 100}` : `refused ${code}${CARRIED[code] ? ` ${CARRIED[code]} ${number}` : ''}`;
}

const own = refusal => (refusal instanceof LcmuxError ? said(refusal) : 'ok');
const honoured = answer => (answer instanceof LcmuxError ? said(answer) : answer > 0 ? `absolved ${answer}` : 'nothing to absolve');
const taken = (answer, word) => (answer === null ? 'empty' : answer === ENDED ? 'ended' : word(answer));
const orNone = left => left ?? '-';
const waived = book => (book.finished || book.waived ? ` finished ${Number(book.finished)} waived ${book.waived}` : '');

function needed(needs) {
  return { nothing: 'nothing', guarantees: `${needs.missing} more`, slot: 'a slot', never: 'never' }[needs.kind];
}

const FLAGS = [['message', 'message'], ['ended', 'ended'], ['plead', 'plead'], ['finished', 'finished'], ['finishedThere', 'finished-there']];

function ready(all) {
  const words = all.flatMap((it, channel) => FLAGS.filter(([flag]) => it[flag]).map(([, word]) => `${channel} ${word}`));
  return words.join(', ') || 'nothing';
}

function client(book) {
  const { held, sendLeft, receiveLeft, asked } = book;
  return `held ${held} send_left ${orNone(sendLeft)} receive_left ${orNone(receiveLeft)} asked ${orNone(asked)}${waived(book)}`;
}

function server(book) {
  const left = book.sendLeft === null ? '' : ` send_left ${book.sendLeft}`;
  return `outstanding ${book.outstanding} buffered ${book.buffered} room ${book.room}${left}${waived(book)}`;
}

function joined(first, second) {
  const both = new Uint8Array(first.length + second.length);
  both.set(first);
  both.set(second, first.length);
  return both;
}

function arrive(me, other) {
  const wire = joined(other.wire, other.peer.write());
  for (let at = 0; at < wire.length; at += 1) {
    other.wire = wire.subarray(at + 1);
    if (me.peer.deliver(wire.subarray(at, at + 1)) === 1) {
      return 'arrived';
    }
  }
  return 'nothing in flight';
}

function deliver(peer, bytes, piece) {
  for (let at = 0; at < bytes.length; at += piece) {
    peer.deliver(bytes.subarray(at, at + piece));
  }
  return 'ok';
}

// What is wrong with the stream where it ends here, and where.
function wrong(peer) {
  try {
    peer.end();
    return 'ok';
  } catch (error) {
    const { offset, frame, allowed, byte } = error;
    const at = `${said(error)} at ${offset}`;
    if (frame !== null) {
      const { kind, channel, number } = frame;
      return `${at}: kind ${KINDS.indexOf(kind)} channel ${channel} number ${orNone(number)} allowed ${orNone(allowed)}`;
    }
    return byte === null ? at : `${at}: byte ${byte}`;
  }
}

function take(peer, channel, room) {
  if (room === undefined) {
    return taken(peer.take(channel), message => `took ${hex(message)}`);
  }
  const buffer = new Uint8Array(Number(room));
  return taken(peer.takeInto(channel, buffer), length => `took ${hex(buffer.subarray(0, length))}`);
}

// The length of the first message, which equals that of the borrowed one.
function front(peer, channel) {
  const pieces = peer.front(channel);
  const length = peer.frontLength(channel);
  const lent = Array.isArray(pieces) ? pieces[0].length + pieces[1].length : pieces;
  return lent === length ? taken(length, String) : `${String(lent)} bytes lent`;
}

function write(peer, room) {
  const buffer = new Uint8Array(Number(room));
  return hex(buffer.subarray(0, peer.writeInto(buffer)));
}

const CALLS = {
  arrive: (me, other) => arrive(me, other),
  bytes: ({ peer }, _, piece, bytes) => deliver(peer, unhex(bytes), piece),
  pending: ({ peer }) => String(peer.pending()),
  end: ({ peer }) => own(peer.end()),
  error: ({ peer }) => wrong(peer),
  'slots-left': ({ peer }) => String(peer.slotsLeft()),
  'wants-write': ({ peer }) => String(Number(peer.wantsWrite())),
  ready: ({ peer }) => ready(peer.ready()),
  write: ({ peer }, _, __, room) => write(peer, room),
  send: ({ peer }, _, __, channel, body) => own(peer.send(Number(channel), unhex(body))),
  'send-zeros': ({ peer }, _, __, channel, length) => own(peer.send(Number(channel), new Uint8Array(Number(length)))),
  issue: ({ peer }, _, __, channel, amount) => own(peer.issue(Number(channel), Number(amount))),
  absolve: ({ peer }, _, __, channel, amount) => own(peer.absolve(Number(channel), Number(amount))),
  plead: ({ peer }, _, __, channel, target) => own(peer.plead(Number(channel), Number(target))),
  'limit-sending': ({ peer }, _, __, channel, bound) => own(peer.limitSending(Number(channel), BigInt(bound))),
  'limit-receiving': ({ peer }, _, __, channel, bound) => own(peer.limitReceiving(Number(channel), BigInt(bound))),
  finish: ({ peer }, _, __, channel) => own(peer.finish(Number(channel))),
  honour: ({ peer }, _, __, channel) => honoured(peer.honour(Number(channel))),
  'would-send': ({ peer }, _, __, channel, length) => own(peer.wouldSend(Number(channel), Number(length))),
  'would-issue': ({ peer }, _, __, channel, amount) => own(peer.wouldIssue(Number(channel), Number(amount))),
  'would-absolve': ({ peer }, _, __, channel, amount) => own(peer.wouldAbsolve(Number(channel), Number(amount))),
  'would-plead': ({ peer }, _, __, channel, target) => own(peer.wouldPlead(Number(channel), Number(target))),
  'would-limit-sending': ({ peer }, _, __, channel, bound) => own(peer.wouldLimitSending(Number(channel), BigInt(bound))),
  'would-limit-receiving': ({ peer }, _, __, channel, bound) => own(peer.wouldLimitReceiving(Number(channel), BigInt(bound))),
  'would-finish': ({ peer }, _, __, channel) => own(peer.wouldFinish(Number(channel))),
  'would-honour': ({ peer }, _, __, channel) => honoured(peer.wouldHonour(Number(channel))),
  needs: ({ peer }, _, __, channel, length) => needed(peer.needs(Number(channel), Number(length))),
  take: ({ peer }, _, __, channel, room) => take(peer, Number(channel), room),
  front: ({ peer }, _, __, channel) => front(peer, Number(channel)),
  client: ({ peer }, _, __, channel) => client(peer.client(Number(channel))),
  server: ({ peer }, _, __, channel) => server(peer.server(Number(channel))),
};

// Makes a call of the side `me`, given as words.
function answer(me, other, piece, [word, ...words]) {
  try {
    return CALLS[word](me, other, piece, ...words);
  } catch (error) {
    return said(error);
  }
}

const NOTHING = new Uint8Array(0);

// Two new peers, and the bytes of each that have not arrived.
function sidesOf(lcmux, [capacities, slots, version = '1']) {
  const config = { capacities: Number(capacities), slots: Number(slots), version: Number(version) };
  return { A: { peer: lcmux.peer(config), wire: NOTHING }, B: { peer: lcmux.peer(config), wire: NOTHING } };
}

/**
 * Runs the rows, whose bytes are delivered in chunks. Returns how many cases and answers there were, and which were
 * wrong.
 */
export function runRows(lcmux, rows, piece) {
  const told = { cases: 0, answers: 0, wrong: [] };
  let sides = {};
  for (const line of rows.split('\n').filter(it => it !== '' && !it.startsWith('#'))) {
    const [call, wanted] = line.split(' => ');
    const [first, ...words] = call.split(' ');
    if (first === 'rings') {
      Object.values(sides).forEach(({ peer }) => peer.free());
      sides = sidesOf(lcmux, words);
      told.cases += 1;
      continue;
    }
    const found = answer(sides[first], sides[first === 'A' ? 'B' : 'A'], piece, words);
    told.answers += 1;
    if (found !== wanted) {
      told.wrong.push(`${line}, and not ${found}`);
    }
  }
  return told;
}
