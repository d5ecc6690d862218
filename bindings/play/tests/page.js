// The page in a tab: what it shows, and its buttons and fields.
import { after, afterEach, before } from 'node:test';
import { pathToFileURL } from 'node:url';
import { programs } from './programs.js';
import { Tab, start } from './tab.js';

export const PAGE = pathToFileURL(process.env.LCMUX_PAGE).href;

export const linked = ({ capacity, version, script }) => `${PAGE}#${new URLSearchParams({ c: capacity, v: version, s: script })}`;

const tabs = [];
let browser;

/** Starts a browser for the tests of a file. */
export function useBrowser() {
  before(async () => (browser = await start()));
  afterEach(() => Promise.all(tabs.splice(0).map(tab => tab.close())));
  after(() => browser.stop());
}

export async function open(url = PAGE, how = {}) {
  const tab = await Tab.open(browser, url, how);
  tabs.push(tab);
  return tab;
}

/** The answers beside the script. Only those in view are in the page, so the box with them is scrolled through. */
const answersIn = tab =>
  tab.run(() => {
    const box = document.querySelector('.editor');
    const top = box.scrollTop;
    const found = [];
    for (let at = 0; at < box.scrollHeight; at += 200) {
      box.scrollTop = at;
      box.dispatchEvent(new Event('scroll'));
      for (const answer of document.querySelectorAll('#answers li.event button')) {
        found[answer.dataset.number - 1] = answer.textContent;
      }
    }
    box.scrollTop = top;
    box.dispatchEvent(new Event('scroll'));
    return found.filter(() => true);
  });

/** The display of the page. */
export async function state(tab) {
  const shown = await tab.run(() => {
    const text = id => document.getElementById(id).textContent;
    return {
      script: document.getElementById('script').value,
      said: text('said'),
      place: text('place'),
      allowed: document.getElementById('allowed').hidden ? null : text('allowed-text'),
      fault: document.getElementById('fault').hidden ? null : text('fault'),
      capacity: Number(document.getElementById('capacity').value),
      version: Number(document.getElementById('version').value),
    };
  });
  return { ...shown, answers: await answersIn(tab) };
}

/** Presses the visible button with this name. */
export const press = (tab, name) =>
  tab.run(name => {
    const found = Array.from(document.querySelectorAll('button')).filter(it => it.checkVisibility() && (it.getAttribute('aria-label') ?? it.textContent) === name);
    if (found.length !== 1) {
      throw new Error(`${found.length} buttons ${name}`);
    }
    found[0].click();
  }, name);

/** Sets the value of a field, and tells the page. */
export const write = (tab, id, value, type = 'input') =>
  tab.run(
    (id, value, type) => {
      const field = document.getElementById(id);
      field.value = value;
      field.dispatchEvent(new Event(type, { bubbles: true }));
    },
    id,
    value,
    type,
  );

export const answersOf = session => programs.replay(session).shown.split('\n').slice(0, -1);
