// How the page starts: in a browser without idle callbacks, and without scripts.
import assert from 'node:assert/strict';
import { test } from 'node:test';
import { PAGE, linked, open, useBrowser } from './page.js';

useBrowser();

test('a browser without idle callbacks shows the picture', async () => {
  const tab = await open('about:blank', { isPage: false });
  await tab.ask('Page.addScriptToEvaluateOnNewDocument', { source: 'delete window.requestIdleCallback; delete window.cancelIdleCallback;' });
  await tab.go(linked({ capacity: 8, version: 1, script: 'B issue 1 5\nA arrive\nA send 1 6869\n' }));
  assert.equal(await tab.run(() => typeof requestIdleCallback + typeof cancelIdleCallback), 'undefinedundefined');
  assert.equal(await tab.run(() => document.getElementById('failure').hidden), true);
  await tab.until(() => document.querySelector('#picture img') !== null);
  // A picture that is not drawn yet is called off by the next change.
  await tab.run(() => ['back', 'back', 'forward'].forEach(id => document.getElementById(id).click()));
  await tab.until(() => document.querySelector('#picture img')?.alt.endsWith('2 events') ?? false);
});

test('a browser without scripts says what is needed, and shows no control that does nothing', async () => {
  const tab = await open('about:blank', { isPage: false });
  await tab.ask('Emulation.setScriptExecutionDisabled', { value: true });
  await tab.load('Page.navigate', { url: PAGE });
  const { nodes } = await tab.ask('Accessibility.getFullAXTree');
  const shown = nodes.filter(({ ignored }) => !ignored);
  const texts = shown.filter(({ role }) => role?.value === 'StaticText').map(({ name }) => name.value).join('');
  assert.match(texts, /This page needs JavaScript, which is switched off\./);
  assert.match(texts, /WebAssembly module: nothing is loaded from another address/);
  assert.deepEqual(shown.filter(({ role }) => ['button', 'tab', 'textbox', 'combobox', 'slider'].includes(role?.value)), []);
});
