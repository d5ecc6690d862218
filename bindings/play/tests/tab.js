// A tab of a headless browser, with a page, a size and a light or dark color scheme.
import { writeFile } from 'node:fs/promises';
import { Chromium } from '../../js/tests/chromium.js';

export class Tab {
  #browser;
  #target;
  #session;

  static async open(browser, url, { width = 1280, height = 900, dark = false, isPage = true } = {}) {
    const { targetId } = await browser.ask('Target.createTarget', { url: 'about:blank' });
    const { sessionId } = await browser.ask('Target.attachToTarget', { targetId, flatten: true });
    const tab = new Tab(browser, targetId, sessionId);
    await tab.ask('Page.enable');
    // In a slow browser the empty page may load only now, which `load` would take for the load of the page.
    await tab.until(() => document.readyState === 'complete');
    await tab.ask('Emulation.setDeviceMetricsOverride', { width, height, deviceScaleFactor: 1, mobile: width < 600 });
    await tab.ask('Emulation.setEmulatedMedia', { features: [{ name: 'prefers-color-scheme', value: dark ? 'dark' : 'light' }] });
    await (isPage ? tab.go(url) : tab.load('Page.navigate', { url }));
    return tab;
  }

  constructor(browser, target, session) {
    [this.#browser, this.#target, this.#session] = [browser, target, session];
  }

  close() {
    return this.#browser.ask('Target.closeTarget', { targetId: this.#target });
  }

  ask(method, params = {}) {
    return this.#browser.ask(method, params, this.#session);
  }

  async go(url) {
    await this.load('Page.navigate', { url });
    await this.started();
  }

  async reload() {
    await this.load('Page.reload');
    await this.started();
  }

  /** Loads a page, whose scripts may not have started. */
  async load(method, params) {
    const loaded = this.#browser.told('Page.loadEventFired', this.#session);
    await this.ask(method, params);
    await loaded;
  }

  /** Waits until the page has started or has failed to. */
  async started() {
    await this.until(() => document.getElementById('tour-title').textContent !== '' || document.getElementById('tour').hidden || !document.getElementById('failure').hidden);
  }

  /** Calls a function with these arguments in the page and returns its result. */
  async run(run, ...words) {
    const expression = `(${run})(...${JSON.stringify(words)})`;
    const { result, exceptionDetails } = await this.ask('Runtime.evaluate', { expression, awaitPromise: true, returnByValue: true, userGesture: true });
    if (exceptionDetails) {
      throw new Error(exceptionDetails.exception?.description ?? exceptionDetails.text);
    }
    return result.value;
  }

  /** Waits until the function returns a true value in the page, for a minute or more. */
  async until(run, ...words) {
    for (let left = 2400; left > 0; left -= 1) {
      if (await this.run(run, ...words)) {
        return;
      }
      await new Promise(resolve => setTimeout(resolve, 25));
    }
    throw new Error(`it did not come about: ${run}`);
  }

  /** Presses a key. */
  async press(key, { shift = false } = {}) {
    const codes = { Tab: 9, Enter: 13, ' ': 32, ArrowLeft: 37, ArrowUp: 38, ArrowRight: 39, ArrowDown: 40, Home: 36, End: 35 };
    const text = { Enter: '\r', ' ': ' ' }[key];
    const it = { key, code: key === ' ' ? 'Space' : key, windowsVirtualKeyCode: codes[key], modifiers: shift ? 8 : 0 };
    await this.ask('Input.dispatchKeyEvent', { type: text === undefined ? 'rawKeyDown' : 'keyDown', text, ...it });
    await this.ask('Input.dispatchKeyEvent', { type: 'keyUp', ...it });
  }

  /** Writes a picture of the whole page to a file. */
  async shoot(file) {
    const { data } = await this.ask('Page.captureScreenshot', { format: 'png', captureBeyondViewport: true });
    await writeFile(file, Buffer.from(data, 'base64'));
  }
}

export const start = () => Chromium.start();
