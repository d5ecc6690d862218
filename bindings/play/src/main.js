// The page: its two views.

import { byId, sayIf } from './dom.js';
import { SessionView } from './session.js';
import { StreamView } from './stream.js';

/** Tabs by the pattern of ARIA: the arrow keys move between them. */
function listenToTabs() {
  const tabs = [byId('tab-session'), byId('tab-stream')];
  const select = chosen =>
    tabs.forEach(tab => {
      const isChosen = tab === chosen;
      tab.setAttribute('aria-selected', String(isChosen));
      tab.tabIndex = isChosen ? 0 : -1;
      byId(tab.getAttribute('aria-controls')).hidden = !isChosen;
    });
  tabs.forEach((tab, at) => {
    tab.addEventListener('click', () => select(tab));
    tab.addEventListener('keydown', event => {
      const step = { ArrowLeft: -1, ArrowRight: 1 }[event.key];
      if (step !== undefined) {
        const next = tabs.at((at + step) % tabs.length);
        select(next);
        next.focus();
      }
    });
  });
}

/** Starts the page over a library, with these examples. */
export async function start(loading, examples) {
  try {
    const library = await loading;
    listenToTabs();
    new StreamView(library);
    new SessionView(library, examples);
  } catch (error) {
    sayIf(byId('failure'), `This page could not start: ${error.message}`);
    throw error;
  }
}
