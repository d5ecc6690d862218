// A headless browser, driven over the pipe of Chromium's developer tools.
import { spawn } from 'node:child_process';
import { once } from 'node:events';
import { mkdtemp, rm } from 'node:fs/promises';
import { tmpdir } from 'node:os';
import { join } from 'node:path';

const FLAGS = ['--headless=new', '--no-sandbox', '--disable-gpu', '--disable-dev-shm-usage', '--no-first-run', '--remote-debugging-pipe'];

/** A tab in which functions can be called. */
class Tab {
  #browser;
  #target;
  #session;

  constructor(browser, target, session) {
    this.#browser = browser;
    this.#target = target;
    this.#session = session;
  }

  /** Returns the value of an expression; a promise is awaited. */
  async evaluate(expression) {
    const words = { expression, awaitPromise: true, returnByValue: true };
    const { result, exceptionDetails } = await this.#browser.ask('Runtime.evaluate', words, this.#session);
    if (exceptionDetails) {
      throw new Error(exceptionDetails.exception?.description ?? exceptionDetails.text);
    }
    return result.value;
  }

  /** Loads the page at an address. */
  async go(url) {
    await this.#browser.ask('Page.enable', {}, this.#session);
    const loaded = this.#browser.told('Page.loadEventFired', this.#session);
    await this.#browser.ask('Page.navigate', { url }, this.#session);
    await loaded;
    // In a slow browser that may have been the empty page of a new tab.
    for (let left = 1000; left > 0 && !(await this.#isLoaded()); left -= 1) {
      await new Promise(resolve => setTimeout(resolve, 10));
    }
  }

  // The answer is an error where one page takes the place of another meanwhile.
  #isLoaded() {
    return this.evaluate("location.href !== 'about:blank' && document.readyState === 'complete'").catch(() => false);
  }

  async close() {
    await this.#browser.ask('Target.closeTarget', { targetId: this.#target });
  }
}

export class Chromium {
  #process;
  #folder;
  #last = 0;
  #asked = new Map();
  #awaited = [];
  #rest = Buffer.alloc(0);

  constructor(process, folder) {
    this.#process = process;
    this.#folder = folder;
    process.stdio[4].on('data', bytes => this.#hear(bytes));
    process.once('exit', () => this.#asked.forEach(({ reject }) => reject(new Error('the browser has ended'))));
  }

  static async start() {
    const folder = await mkdtemp(join(tmpdir(), 'chromium-'));
    const stdio = ['ignore', 'ignore', 'ignore', 'pipe', 'pipe'];
    const process = spawn('chromium', [...FLAGS, `--user-data-dir=${folder}`, 'about:blank'], { stdio });
    await once(process, 'spawn');
    return new Chromium(process, folder);
  }

  // Messages are JSON, each followed by a zero byte.
  #hear(bytes) {
    this.#rest = Buffer.concat([this.#rest, bytes]);
    for (let end; (end = this.#rest.indexOf(0)) >= 0; ) {
      this.#answer(JSON.parse(this.#rest.subarray(0, end).toString()));
      this.#rest = this.#rest.subarray(end + 1);
    }
  }

  #answer({ id, result, error, method, sessionId }) {
    const asked = this.#asked.get(id);
    this.#asked.delete(id);
    if (asked !== undefined) {
      error ? asked.reject(new Error(error.message)) : asked.resolve(result);
    }
    this.#awaited.filter(it => it.method === method && it.sessionId === sessionId).forEach(it => it.resolve());
  }

  ask(method, params = {}, sessionId = undefined) {
    const id = (this.#last += 1);
    if (this.#hasEnded) {
      return Promise.reject(new Error('the browser has ended'));
    }
    return new Promise((resolve, reject) => {
      this.#asked.set(id, { resolve, reject });
      this.#process.stdio[3].write(`${JSON.stringify({ id, method, params, sessionId })}\0`);
    });
  }

  told(method, sessionId) {
    return new Promise(resolve => this.#awaited.push({ method, sessionId, resolve }));
  }

  async tab(url) {
    const { targetId } = await this.ask('Target.createTarget', { url: 'about:blank' });
    const { sessionId } = await this.ask('Target.attachToTarget', { targetId, flatten: true });
    const tab = new Tab(this, targetId, sessionId);
    await tab.go(url);
    return tab;
  }

  get #hasEnded() {
    return this.#process.exitCode !== null || this.#process.signalCode !== null;
  }

  // Processes of a browser that has ended may still write into its folder for a while.
  async stop() {
    if (!this.#hasEnded) {
      const ended = once(this.#process, 'exit');
      this.ask('Browser.close').catch(() => {});
      await ended;
    }
    await rm(this.#folder, { recursive: true, force: true, maxRetries: 20 });
  }
}
