// The cases of ../schedules.txt: calls of one session, and what each lets happen by the rules of sessions. The session
// completes each call by itself.
import assert from 'node:assert/strict';
import { readFile } from 'node:fs/promises';
import { test } from 'node:test';
import { CHANNELS, LcmuxError, SessionClosed } from 'lcmux';
import { framesOf } from './frames.js';
import { alone, settled } from './streams.js';

const text = await readFile(new URL('../../schedules.txt', import.meta.url), 'utf8');
const cases = text.split(/^(?=session)/m).slice(1);
const KINDS = { Local: 'closed', Cut: 'cut', Aborted: 'aborted' };

function said(error) {
  if (error instanceof LcmuxError) {
    return `refused ${error.code}`;
  }
  assert.ok(error instanceof SessionClosed, error);
  return KINDS[error.kind];
}

function answered(call) {
  try {
    call();
    return 'ok';
  } catch (error) {
    return said(error);
  }
}

/** A session whose transport takes a chunk when it is told to, and none otherwise. */
class Schedule {
  #there;
  #version;
  #resume = () => {};
  #calls = new Map();
  #tickets = 0;
  #done = [];
  #failed = new Map();
  #hasEnded = false;

  static async start(words) {
    const [, , version, , slots, issues] = words;
    const config = { version: Number(version), slots: Number(slots), capacities: 200, issue: issues ? 'at once' : 'by caller' };
    const schedule = new Schedule();
    schedule.#version = config.version;
    schedule.#there = await alone(config, { version: config.version, capacities: 2 ** 20 }, it => schedule.#hold(it));
    schedule.#there.put();
    await settled();
    return schedule;
  }

  // The next write waits until it is resumed.
  #hold(there) {
    there.hold = new Promise(resolve => (this.#resume = resolve));
  }

  async #step() {
    const [chunk] = this.#there.writes.splice(0);
    if (chunk === undefined) {
      return 'nothing';
    }
    const resume = this.#resume;
    this.#hold(this.#there);
    resume();
    await settled();
    const preface = Buffer.from('LCM\x02', 'latin1');
    const isFirst = Buffer.from(chunk).subarray(0, 4).equals(preface);
    return framesOf([isFirst ? chunk.subarray(4) : chunk], this.#version).join(', ') || 'preface';
  }

  async #send(channel, length) {
    this.#tickets += 1;
    const ticket = this.#tickets;
    const controller = new AbortController();
    let answer = 'waits';
    let isNew = true;
    const ends = (now, later) => {
      if (isNew) {
        answer = now;
      } else {
        later();
      }
      this.#calls.delete(ticket);
    };
    this.#calls.set(ticket, controller);
    this.#there.session.channel(channel).send(new Uint8Array(length), { signal: controller.signal }).then(
      () => ends('sent', () => this.#done.push(ticket)),
      error => controller.signal.aborted || ends(said(error), () => this.#failed.set(ticket, said(error))),
    );
    await settled(); // no event lets a call proceed that did not proceed at once
    isNew = false;
    return answer;
  }

  #cancel(ticket) {
    const call = this.#calls.get(ticket);
    call?.abort();
    return this.#calls.delete(ticket) ? 'cancelled' : 'nothing';
  }

  async #take(channel) {
    const controller = new AbortController();
    const taken = this.#there.session.channel(channel).receive({ signal: controller.signal });
    let answer = 'nothing';
    taken.then(message => (answer = `took ${message.length}`), () => {});
    await settled();
    controller.abort();
    return answer;
  }

  // Bytes of the peer arrive.
  #feed(...bytes) {
    this.#there.comes.enqueue(Uint8Array.from(bytes.flat()));
    return 'ok';
  }

  #perform(word, channel, number) {
    const { session } = this.#there;
    const of = () => session.channel(channel);
    const big = (count, size) => [...Array(size).keys()].map(at => (count >>> (8 * (size - 1 - at))) & 255);
    switch (word) {
      case 'send':
        return this.#send(channel, number);
      case 'step':
        return this.#step();
      case 'take':
        return this.#take(channel);
      case 'cancel':
        return this.#cancel(channel);
      case 'issue':
        return answered(() => of().issue(number));
      case 'limit':
        return answered(() => of().limitSending(BigInt(number)));
      case 'absolve':
        return answered(() => of().absolve(number));
      case 'finish':
        return answered(() => of().finish());
      case 'grant':
        return this.#feed(0x20 + channel, big(number, 4));
      case 'arrive':
        return this.#feed(0x10 + channel, big(number, 2 * this.#version), Array(number).fill(7));
      case 'close':
        session.close().catch(() => {});
        return 'ok';
      case 'abort':
        session.abort();
        return 'ok';
      case 'cut':
        this.#there.comes.close();
        return 'ok';
      default:
        throw new Error(word);
    }
  }

  async answer(line) {
    const [word, ...numbers] = line.split(' ');
    const first = await this.#perform(word, ...numbers.map(Number));
    await settled();
    const done = this.#done.splice(0).map(ticket => `done ${ticket}`);
    const failed = [...this.#failed].sort(([a], [b]) => a - b).map(([ticket, why]) => `${why} ${ticket}`);
    this.#failed.clear();
    const end = this.#there.isClosed && !this.#hasEnded ? ['end'] : [];
    this.#hasEnded ||= end.length > 0;
    return [first, ...done, ...failed, ...end].join('; ');
  }
}

/** The number of answers, and the first wrong one. */
async function run(lines) {
  const schedule = await Schedule.start(lines[0].split(' '));
  let answers = 0;
  for (const line of lines.slice(1).filter(it => it !== '')) {
    const [call, due] = line.split(' => ');
    const answer = await schedule.answer(call);
    if (answer !== due) {
      return { answers, wrong: { line, answer } };
    }
    answers += 1;
  }
  return { answers, wrong: null };
}

test('each schedule is answered by the rules', async () => {
  assert.equal(CHANNELS.length, 7);
  const ran = await Promise.all(cases.map(it => run(it.split('\n'))));
  assert.deepEqual(ran.map(it => it.wrong).filter(it => it !== null), []);
  assert.equal(ran.reduce((sum, it) => sum + it.answers, 0), text.match(/ => /g).length);
});
