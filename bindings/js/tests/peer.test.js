import assert from 'node:assert/strict';
import { readFile } from 'node:fs/promises';
import { test } from 'node:test';
import { CHANNELS, Channel, Code, ENDED, LcmuxError, Peer, VERSION, load } from 'lcmux';
import { breakHandle, refusingModule } from './module.js';

const { Data } = Channel;
const lcmux = await load();
const bytes = text => new TextEncoder().encode(text);
const hex = text => Uint8Array.from(text.match(/../g), byte => parseInt(byte, 16));
const fileOf = path => new URL(`../${path}`, import.meta.url);

/** The expected members of a refusal, in this order: code, name, number, message. */
function refusedBy(code, kind, number, message) {
  return error => {
    assert.ok(error instanceof LcmuxError && error instanceof Error);
    assert.deepEqual([error.name, error.code, error.kind, error.number, error.message], ['LcmuxError', code, kind, number, message]);
    return true;
  };
}

test('the channels are those of the formats', () => {
  const names = ['Reconciliation', 'Data', 'Overlap', 'Capability', 'AreaOfInterest', 'PayloadRequest', 'StaticToken'];
  assert.deepEqual(Object.entries(Channel), names.map((name, number) => [name, number]));
  assert.deepEqual(CHANNELS, [0, 1, 2, 3, 4, 5, 6]);
});

test('a code has the sentence that the module says, and no other number has one', () => {
  const known = new Map(Object.entries(Code).map(([kind, code]) => [code, kind]));
  for (let code = 1; code < 1000; code += 1) {
    if (known.has(code)) {
      const error = new LcmuxError(code, 7);
      assert.deepEqual([error.kind, error.sentence], [known.get(code), lcmux.text(code)]);
    } else {
      assert.throws(() => lcmux.text(code), { code: Code.NoCode });
    }
  }
  assert.equal(lcmux.text(0), 'done');
});

test('violations and faults are stops, and refusals are none', () => {
  for (const code of Object.values(Code)) {
    assert.equal(new LcmuxError(code).isStop, code > 100);
  }
});

test('one version', async () => {
  const header = await readFile(fileOf('../c/lcmux.h'), 'utf8');
  assert.equal(header.match(/LCMUX_VERSION "(.*)"/)[1], VERSION);
  assert.equal(JSON.parse(await readFile(fileOf('package.json'))).version, VERSION);
  assert.equal(lcmux.version, Number(header.match(/LCMUX_VERSION_NUMBER (.*)/)[1]));
});

test('a module of another version is refused', async () => {
  // The exports version, answered, place_at and place_len, each of which returns 256 times 2, and a memory.
  const names = ['version', 'answered', 'place_at', 'place_len'];
  const entries = names.flatMap((name, at) => [name.length, ...bytes(name), 0, at]);
  const section = (id, ...content) => [id, content.length, ...content];
  const code = [0x04, 0x00, 0x41, 0x80, 0x04, 0x0b]; // a body: i32.const 512, end
  const wasm = Uint8Array.of(
    ...[0, 0x61, 0x73, 0x6d, 1, 0, 0, 0],
    ...section(1, 1, 0x60, 0, 1, 0x7f),
    ...section(3, 4, 0, 0, 0, 0),
    ...section(5, 1, 0, 1),
    ...section(7, 5, 6, ...bytes('memory'), 2, 0, ...entries),
    ...section(10, 4, ...[0, 1, 2, 3].flatMap(() => [code.length - 1, ...code.slice(1)])),
  );
  await assert.rejects(load(wasm), /must have version 0\.1\.0, got 0x200/);
});

test('the module is taken from each source', async () => {
  const wasm = await readFile(fileOf('out/lcmux.wasm'));
  const type = { headers: { 'content-type': 'application/wasm' } };
  const sources = [fileOf('out/lcmux.wasm'), wasm, wasm.buffer.slice(wasm.byteOffset, wasm.byteOffset + wasm.length)];
  for (const source of [...sources, new Response(wasm, type), Promise.resolve(new Response(wasm)), await WebAssembly.compile(wasm)]) {
    assert.equal((await load(source)).version, 0x000100);
  }
  await assert.rejects(load(new Response('no', { status: 404 })), /404/);
  await assert.rejects(load(Uint8Array.of(1, 2, 3)), WebAssembly.CompileError);
  assert.equal(WebAssembly.Module.imports(await WebAssembly.compile(wasm)).length, 0);
});

test('hello', () => {
  const [alice, bob] = [lcmux.peer({ slots: 16, capacities: 1024 }), lcmux.peer({ slots: 16, capacities: 1024 })];
  const none = refusedBy(4, 'NoGuarantee', 0, 'the message is longer than the guarantees that are held (held 0)');
  assert.throws(() => alice.send(Data, bytes('hello')), none);
  bob.issue(Data, 8);
  assert.equal(alice.deliver(bob.write()), 1);
  alice.send(Data, bytes('hello'));
  alice.limitSending(Data, 0);
  assert.equal(bob.deliver(alice.write()), 2);
  assert.equal(bob.frontLength(Data), 5);
  assert.deepEqual(bob.take(Data), bytes('hello'));
  assert.equal(bob.take(Data), ENDED);
  assert.equal(bob.frontLength(Data), ENDED);
  assert.equal(alice.take(Data), null);
});

test('a message is lent where it lies, in two pieces where it goes round its ring', () => {
  const [alice, bob] = [lcmux.peer({ capacities: 8 }), lcmux.peer({ capacities: 8 })];
  const sent = text => {
    bob.issue(Data, text.length);
    alice.deliver(bob.write());
    alice.send(Data, bytes(text));
    bob.deliver(alice.write());
  };
  const lent = () => bob.front(Data).map(piece => new TextDecoder().decode(piece));
  assert.deepEqual([bob.front(Data), bob.pop(Data)], [null, null]);
  sent('hello');
  assert.deepEqual([lent(), lent(), bob.frontLength(Data)], [['hello', ''], ['hello', ''], 5]);
  sent('abc');
  assert.deepEqual([bob.pop(Data), lent()], [5, ['abc', '']]);
  const room = new Uint8Array(3);
  assert.deepEqual([bob.takeInto(Data, room), room, bob.server(Data).room], [3, bytes('abc'), 8]);
  for (let turn = 0; turn < 40; turn += 1) {
    const text = String.fromCharCode(65 + turn).repeat(1 + (turn % 7));
    sent(text);
    assert.deepEqual([lent().join(''), bob.take(Data)], [text, bytes(text)]);
  }
  alice.limitSending(Data, 0);
  bob.deliver(alice.write());
  assert.deepEqual([bob.front(Data), bob.pop(Data)], [ENDED, ENDED]);
});

// Values that are no numbers, and numbers that are not in 0 to most.
const OTHERS = [undefined, null, '1', true, {}, [1], 1n, () => 1];
const outside = most => [-1, -0.5, 0.5, NaN, Infinity, -Infinity, most + 1, 2 ** 53];

test('what is passed is judged before it reaches the module', () => {
  const peer = lcmux.peer();
  const most = 2 ** 32 - 1;
  const amounts = ['issue', 'absolve', 'plead', 'wouldIssue', 'wouldAbsolve', 'wouldPlead'];
  const channels = ['honour', 'finish', 'wouldHonour', 'wouldFinish', 'frontLength', 'front', 'pop', 'take', 'client', 'server'];
  const bounds = ['limitSending', 'limitReceiving', 'wouldLimitSending', 'wouldLimitReceiving'];
  const lengths = ['wouldSend', 'needs'];
  const refuses = (kind, values, call) => values.forEach(it => assert.throws(() => call(it), kind, `${call} ${typeof it} ${String(it)}`));
  for (const name of [...amounts, ...channels, ...bounds, ...lengths, 'send', 'takeInto']) {
    refuses(TypeError, OTHERS, it => peer[name](it, 1));
    refuses(RangeError, outside(6), it => peer[name](it, 1));
  }
  for (const name of amounts) {
    refuses(TypeError, OTHERS, it => peer[name](Data, it));
    refuses(RangeError, [...outside(most), 2 ** 32 + 1], it => peer[name](Data, it));
  }
  for (const name of bounds) {
    refuses(TypeError, OTHERS.filter(it => it !== 1n), it => peer[name](Data, it));
    refuses(RangeError, [...outside(2 ** 53), -1n, 2n ** 64n, 2n ** 64n + 1n], it => peer[name](Data, it));
  }
  for (const name of lengths) {
    refuses(TypeError, OTHERS, it => peer[name](Data, it));
    refuses(RangeError, outside(2 ** 53), it => peer[name](Data, it));
  }
  const noBytes = [...OTHERS, new ArrayBuffer(1), new Int8Array(1), new Uint8ClampedArray(1), new DataView(new ArrayBuffer(1)), 'hello'];
  for (const name of ['send', 'takeInto']) {
    refuses(TypeError, noBytes, it => peer[name](Data, it));
  }
  for (const name of ['deliver', 'writeInto']) {
    refuses(TypeError, noBytes, it => peer[name](it));
  }
  refuses(TypeError, OTHERS, it => peer.advance(it));
  refuses(RangeError, outside(most), it => peer.advance(it));
  refuses(RangeError, [-1, 0.5, NaN, 2 ** 32], it => peer.write(it));
  assert.deepEqual([peer.pending(), peer.client(Data).sendLeft, peer.server(Data).issued], [0, null, 0n]);
});

test('a configuration is judged, in this order', () => {
  const refuses = (config, code, number, message) => assert.throws(() => lcmux.peer(config), { name: 'LcmuxError', code, number, message });
  const ofVersion = version => `the version must be 1 or 2, got ${version}`;
  const ofRing = (channel, capacity) => `the capacity of channel ${channel} must be in 1..=16777216, got ${capacity}`;
  const ofSlots = slots => `slots must be in 1..=65536, got ${slots}`;
  refuses({ version: 3, slots: 0, capacities: 0 }, Code.BadVersion, undefined, ofVersion(3));
  refuses({ version: 0 }, Code.BadVersion, undefined, ofVersion(0));
  refuses({ slots: 0, capacities: [8, 8, 0, 8, 8, 0, 8] }, Code.BadCapacity, 2, ofRing(2, 0));
  refuses({ capacities: 2 ** 24 + 1 }, Code.BadCapacity, 0, ofRing(0, 16_777_217));
  refuses({ slots: 0 }, Code.BadSlots, undefined, ofSlots(0));
  refuses({ slots: 65_537 }, Code.BadSlots, undefined, ofSlots(65_537));
  for (const name of ['version', 'slots', 'capacities']) {
    for (const [values, kind] of [[['1', 1n, null, {}], TypeError], [[-1, 1.5, NaN, 2 ** 32, 2 ** 32 + 1], RangeError]]) {
      values.forEach(it => assert.throws(() => lcmux.peer({ [name]: it }), kind, `${name} ${String(it)}`));
    }
  }
  assert.throws(() => lcmux.peer({ capacities: [8, 8, 8] }), RangeError);
  const peer = lcmux.peer({ version: 2, slots: 3, capacities: [1, 2, 3, 4, 5, 6, 2 ** 24] });
  assert.deepEqual(CHANNELS.map(channel => peer.server(channel).capacity), [1, 2, 3, 4, 5, 6, 2 ** 24]);
  assert.deepEqual([peer.version, peer.slotsLeft(), peer.write()], [2, 3, hex('4c434d02')]);
  const plain = lcmux.peer();
  assert.deepEqual([plain.version, plain.slotsLeft(), plain.server(6).capacity, plain.pending()], [1, 16, 65_536, 0]);
});

test('a key that is undefined is absent, and one that there is not is refused by its name', () => {
  const [plain, given] = [lcmux.peer(), lcmux.peer({ version: undefined, slots: undefined, capacities: undefined })];
  const balances = peer => [peer.version, peer.slotsLeft(), peer.server(6).capacity];
  assert.deepEqual(balances(given), balances(plain));
  assert.deepEqual(balances(lcmux.peer({ version: 2, slots: undefined })), [2, 16, 65_536]);
  const named = key => ({ name: 'TypeError', message: new RegExp(`no key '${key}'`) });
  assert.throws(() => lcmux.peer({ version: 2, capacity: 8 }), named('capacity'));
  assert.throws(() => lcmux.peer({ Slots: undefined }), named('Slots'));
  assert.throws(() => lcmux.peer(Object.create({ capacity: 8 })), named('capacity'));
  assert.throws(() => lcmux.peer([8]), named('0'));
  for (const none of ['text', 8, true, 1n, () => 1]) {
    assert.throws(() => lcmux.peer(none), TypeError);
  }
});

test('an error has its name, code and message in JSON, and a bigint as a text', () => {
  const peer = lcmux.peer();
  const large = 2n ** 62n - 1n;
  peer.limitSending(Data, large);
  const told = run => {
    try {
      return run();
    } catch (error) {
      return JSON.parse(JSON.stringify({ error })).error;
    }
  };
  assert.deepEqual(told(() => peer.limitSending(Data, 2n ** 62n)), {
    name: 'LcmuxError',
    code: 8,
    kind: 'LimitRaised',
    message: 'the bound is above what an earlier limit leaves (left 4611686018427387903)',
    sentence: 'the bound is above what an earlier limit leaves',
    number: '4611686018427387903',
  });
  const held = told(() => peer.send(Data, bytes('hello')));
  assert.deepEqual([held.code, held.kind, held.number], [4, 'NoGuarantee', 0]);
  // An issue, and then a byte that is no tag.
  const stop = told(() => peer.deliver(hex('2100000005' + 'ff')));
  assert.deepEqual([stop.name, stop.code, stop.kind, 'number' in stop, stop.frames], ['LcmuxError', 201, 'BadTag', false, 1]);
});

test('numbers above 2^53 are exact', () => {
  const [peer, other] = [lcmux.peer(), lcmux.peer()];
  const large = 2n ** 53n + 1n;
  peer.limitSending(Data, large);
  assert.equal(peer.client(Data).sendLeft, large);
  assert.throws(() => peer.limitSending(Data, 2n ** 62n), refusedBy(8, 'LimitRaised', large, `the bound is above what an earlier limit leaves (left ${large})`));
  assert.throws(() => peer.limitSending(Data, 2n ** 62n + 1n), { code: Code.BoundTooLarge, number: undefined });
  assert.throws(() => peer.limitSending(Data, 2n ** 64n - 1n), { code: Code.BoundTooLarge });
  peer.limitReceiving(Data, 2n ** 62n);
  assert.deepEqual(peer.wouldLimitReceiving(Data, 2n ** 62n), null);
  assert.equal(peer.server(Data).receiveLeft, 2n ** 62n);
  other.deliver(peer.write());
  assert.equal(other.server(Data).sendLeft, large);
  assert.equal(other.client(Data).receiveLeft, 2n ** 62n);
  peer.limitSending(Data, Number.MAX_SAFE_INTEGER);
  assert.equal(peer.client(Data).sendLeft, 2n ** 53n - 1n);
  assert.equal(peer.wouldSend(Data, Number.MAX_SAFE_INTEGER).code, Code.BodyTooLong);
  assert.deepEqual(peer.needs(Data, 2 ** 32 + 1), { kind: 'never' });
});

test('the balances', () => {
  const [alice, bob] = [lcmux.peer({ version: 2, capacities: 100 }), lcmux.peer({ version: 2, capacities: 100 })];
  bob.issue(Data, 50);
  alice.deliver(bob.write());
  alice.send(Data, bytes('hello'));
  alice.absolve(Data, 4);
  bob.deliver(alice.write());
  bob.plead(Data, 30);
  alice.deliver(bob.write());
  const client = { held: 41, received: 50n, spent: 5n, absolved: 4n, waived: 0n, sendLeft: null, receiveLeft: null, asked: 30, finished: false };
  const server = { capacity: 100, issued: 50n, received: 5n, taken: 0n, absolved: 4n, outstanding: 41, buffered: 5, room: 54, waived: 0n, sendLeft: null, receiveLeft: null, finished: false };
  assert.deepEqual([alice.client(Data), bob.server(Data)], [client, server]);
  const flags = { message: false, ended: false, plead: false, finished: false, finishedThere: false };
  assert.deepEqual(alice.ready()[Data], { ...flags, plead: true });
  assert.deepEqual(bob.ready()[Data], { ...flags, message: true });
  assert.deepEqual([alice.wouldHonour(Data), alice.honour(Data), alice.honour(Data)], [11, 11, 0]);
  alice.finish(Data);
  bob.deliver(alice.write());
  assert.deepEqual(alice.client(Data), { ...client, held: 0, absolved: 15n, waived: 30n, asked: null, finished: true });
  assert.deepEqual(bob.server(Data), { ...server, absolved: 15n, outstanding: 0, room: 95, waived: 30n, finished: true });
  assert.deepEqual([alice.ready()[Data].finished, bob.ready()[Data].finishedThere, bob.ready()[Data].ended], [true, true, false]);
  assert.equal(alice.wouldHonour(Data).code, Code.ChannelFinished);
});

test('a stop says how far it came, and is answered for good', () => {
  const peer = lcmux.peer();
  peer.issue(Data, 5);
  // An issue, then a message that is longer than the outstanding guarantees, then more.
  const wire = hex('2100000005' + '110006616161616161' + '2100000001');
  const stop = refusedBy(101, 'NotGuaranteed', undefined, 'V1 at byte 5: a Send of 6 on Data, where 5 are outstanding');
  assert.throws(() => peer.deliver(wire), error => stop(error) && error.frames === 1 && error.taken === 14);
  assert.throws(() => peer.deliver(wire.subarray(0, 5)), error => stop(error) && error.frames === 0 && error.taken === 0);
  assert.throws(() => peer.end(), stop);
  assert.equal(peer.client(Data).held, 5);
  peer.send(Data, bytes('still'));
});

// Streams to a peer that issued 5 guarantees on channel 1, and what is wrong where they end.
const PROTOCOL_ERRORS = {
  '1100016111000568656c6c6f': 'V1 at byte 4: a Send of 5 on Data, where 4 are outstanding',
  '5100000000000000011100026162': "V2 at byte 9: a Send of 2 on Data, where the sender's limit leaves 1",
  '21000000073100000006': 'V3 at byte 5: an Absolve of 6 on Data, where 5 are outstanding',
  '3300000006': 'V3 at byte 0: an Absolve of 6 on Capability, where 0 are outstanding',
  '510000000000000001510000000000000002': "V4 at byte 9: a LimitSending of 2 on Data, where the sender's limit leaves 1",
  '6100000000000000012100000002': "V5 at byte 9: an Issue of 2 on Data, where the receiver's limit leaves 1",
  '21010000002100000001': 'V6 at byte 5: an Issue of 1 on Data, where the sender may hold 0 more',
  '660000000000000005660000000000000006': "V7 at byte 9: a LimitReceiving of 6 on StaticToken, where the receiver's limit leaves 5",
  '4c434d027171': 'V9 at byte 5: a Finish on Data, after the Finish of the channel',
  '4c434d0271110000000161': 'V9 at byte 5: a Send of 1 on Data, after the Finish of the channel',
  '210000000577': "F1 at byte 5: a byte names no kind or channel, or is not the greeting's (0x77)",
  '4c430d': "F1 at byte 0: a byte names no kind or channel, or is not the greeting's (0x0d)",
  '2100000005110000': 'F2 at byte 5: a message has length 0 (a Send of 0 on Data)',
  '2100000000': 'F3 at byte 0: a number in a frame is out of its range (an Issue of 0 on Data)',
  '4c434d02210000000521': 'F4 at byte 9: the stream ends within a frame or a greeting',
};

test('a protocol error says where it is and what was allowed', () => {
  for (const [stream, message] of Object.entries(PROTOCOL_ERRORS)) {
    const peer = lcmux.peer();
    peer.issue(Data, 5);
    assert.throws(() => {
      peer.deliver(hex(stream));
      peer.end();
    }, { message });
    peer.free();
  }
});

test('a protocol error writes its bigints as text', () => {
  const peer = lcmux.peer();
  const raised = hex('51' + '2000000000000000' + '51' + '2000000000000001');
  assert.throws(() => peer.deliver(raised), error => {
    const frame = { kind: 'LimitSending', channel: Data, number: 2n ** 61n + 1n };
    assert.deepEqual([error.offset, error.frame, error.allowed, error.byte], [9, frame, 2n ** 61n, null]);
    const json = JSON.parse(JSON.stringify(error));
    assert.deepEqual([json.frame.number, json.allowed], [String(2n ** 61n + 1n), String(2n ** 61n)]);
    return true;
  });
});

test('a message that was taken is the caller\'s', () => {
  const peer = lcmux.peer();
  peer.issue(Data, 4);
  peer.deliver(hex('1100026869' + '1100023334'));
  const taken = [peer.take(Data), peer.take(Data)];
  assert.deepEqual(taken, [bytes('hi'), bytes('34')]);
});

test('an end within a frame is a fault', () => {
  const peer = lcmux.peer();
  peer.end();
  assert.equal(peer.deliver(hex('2100')), 0);
  assert.throws(() => peer.end(), refusedBy(204, 'Truncated', undefined, 'F4 at byte 0: the stream ends within a frame or a greeting'));
  assert.equal(peer.deliver(hex('000005')), 1);
  peer.end();
});

test('what goes out is cut anywhere, and a chunk stays until it went', () => {
  const peer = lcmux.peer({ version: 2 });
  peer.issue(Data, 5);
  const whole = hex('4c434d02' + '2100000005');
  assert.deepEqual([peer.pending(), peer.wantsWrite()], [9, true]);
  assert.deepEqual(peer.chunk(), whole);
  assert.deepEqual(peer.chunk(), whole);
  peer.chunk().fill(0);
  assert.throws(() => peer.advance(10), RangeError);
  peer.advance(3);
  assert.deepEqual([peer.pending(), peer.wantsWrite(), peer.chunk()], [6, true, whole.subarray(3)]);
  peer.issue(Data, 1);
  assert.deepEqual([peer.pending(), peer.write(4)], [11, whole.subarray(3, 7)]);
  const buffer = new Uint8Array(9).fill(0xee);
  assert.equal(peer.writeInto(buffer), 7);
  assert.deepEqual(buffer, hex('0005' + '2100000001' + 'eeee'));
  assert.deepEqual([peer.pending(), peer.wantsWrite(), peer.write(), peer.chunk(), peer.writeInto(buffer)], [0, false, new Uint8Array(0), new Uint8Array(0), 0]);
});

test('the longest message goes through, and a longer one does not', () => {
  for (const [version, most] of [[1, 65_535], [2, 1_048_576]]) {
    const [alice, bob] = [lcmux.peer({ version, capacities: 2 ** 21 }), lcmux.peer({ version, capacities: 2 ** 21 })];
    bob.issue(Data, 2 ** 21);
    alice.deliver(bob.write());
    const body = Uint8Array.from({ length: most }, (_, at) => at ^ (at >> 8));
    for (const longer of [most + 1, 2 ** 21 + 1]) {
      assert.throws(() => alice.send(Data, new Uint8Array(longer)), { code: Code.BodyTooLong });
    }
    alice.send(Data, body);
    assert.deepEqual([alice.chunk().length, alice.pending()], [16_384, most + (version === 1 ? 3 : 9)]);
    bob.deliver(alice.write());
    const small = new Uint8Array(most - 1);
    assert.throws(() => bob.takeInto(Data, small), { code: Code.BufferTooSmall, number: most });
    const large = new Uint8Array(2 ** 21);
    assert.equal(bob.takeInto(Data, large), most);
    assert.deepEqual(large.subarray(0, most), body);
  }
});

test('views into a larger buffer, and arrays of another realm, are taken as they are', async () => {
  const { runInNewContext } = await import('node:vm');
  const peer = lcmux.peer();
  const view = Buffer.from('xx2100000009xx').subarray(2, 12);
  assert.equal(peer.deliver(Buffer.from(view.toString(), 'hex')), 1);
  const there = runInNewContext('Uint8Array.of(104, 105)');
  assert.ok(!(there instanceof Uint8Array));
  peer.send(Data, there);
  peer.send(Data, new Uint8Array(bytes('0123456789').buffer, 3, 2));
  assert.deepEqual(peer.write(), hex('1100026869' + '1100023334'));
});

test('a peer that was freed answers no call', () => {
  const peer = lcmux.peer();
  peer.free();
  peer.free();
  const one = new Uint8Array(1);
  const calls = Object.getOwnPropertyNames(Peer.prototype).filter(name => !['constructor', 'version', 'free'].includes(name));
  assert.equal(calls.length, 34);
  for (const name of calls) {
    const words = { send: [Data, one], takeInto: [Data, one], deliver: [one], writeInto: [one], write: [], chunk: [], advance: [0] }[name] ?? [Data, 1];
    assert.throws(() => peer[name](...words), refusedBy(32, 'NoPeer', undefined, 'the handle is empty'), name);
  }
});

test('after a trap no call is answered', async () => {
  const refusing = await refusingModule();
  const [first, second] = [refusing.peer(), refusing.peer()];
  breakHandle(refusing, 1);
  assert.throws(() => second.issue(Data, 1), WebAssembly.RuntimeError);
  const { calls } = refusing.told;
  const refused = error => /an earlier call of the module trapped/.test(error.message) && error.cause instanceof WebAssembly.RuntimeError;
  for (const call of [() => first.pending(), () => second.issue(Data, 1), () => refusing.peer(), () => refusing.module.text(1)]) {
    assert.throws(call, refused);
  }
  first.free();
  assert.equal(refusing.told.calls, calls);
  assert.equal(refusing.module.hasTrapped, true);
  assert.equal(lcmux.hasTrapped, false);
  lcmux.peer().issue(Data, 1);
});

test('a module of which a call trapped lets no other in', async () => {
  const refusing = await refusingModule();
  const { exports, told } = refusing;
  [1, 2].forEach(() => refusing.peer({ capacities: 8 }));
  const [broken, whole] = told.handles;
  assert.equal(exports.peer_pending(whole), 0);
  breakHandle(refusing, 0);
  assert.throws(() => exports.peer_pending(broken), WebAssembly.RuntimeError);
  assert.throws(() => exports.peer_pending(whole), WebAssembly.RuntimeError);
});

test('a stack that is too deep traps', async () => {
  const refusing = await refusingModule();
  const peer = refusing.peer();
  const deep = () => {
    peer.pending();
    deep();
  };
  assert.throws(deep, RangeError);
});

test('what the types say of the codes is so', async () => {
  const types = await readFile(fileOf('lcmux.d.ts'), 'utf8');
  const said = types.slice(types.indexOf('const Code:'), types.indexOf('export type Kind'));
  assert.deepEqual(Object.fromEntries([...said.matchAll(/readonly (\w+): (\d+);/g)].map(([, kind, code]) => [kind, Number(code)])), { ...Code });
  const members = types.slice(types.indexOf('class Peer '), types.indexOf('export interface Streams'));
  const named = [...members.matchAll(/^  (?:readonly )?(\w+)[(:]/gm)].map(([, name]) => name).filter(name => name !== 'private');
  assert.deepEqual(named.sort(), Object.getOwnPropertyNames(Peer.prototype).filter(name => name !== 'constructor').sort());
});
