// Large inputs in a browser: each answers within a second.
import assert from 'node:assert/strict';
import { test } from 'node:test';
import { linked, open, press, useBrowser, write } from './page.js';

useBrowser();

const SECOND = 1000;

// The fastest of five runs, since a busy machine is slow at times. A run ends when the browser has shown what changed.
const fastest = (tab, run, ...words) =>
  tab.run(
    `async (...words) => {
      const spans = [];
      for (let left = 5; left > 0; left -= 1) {
        const began = performance.now();
        (${run})(...words);
        await new Promise(resolve => requestAnimationFrame(() => setTimeout(resolve)));
        spans.push(performance.now() - began);
      }
      return Math.min(...spans);
    }`,
    ...words,
  );

const isQuick = (what, span, most = SECOND) => assert.ok(span < most, `${what}: ${Math.round(span)} ms`);

// A second, or on a busy machine three times what a bare text field takes for 20,000 lines.
const mostBeside = bare => Math.max(SECOND, 3 * bare);
const mostOf = async tab => mostBeside(await bareSpan(tab, ROUND.repeat(4000)));

const ROUND = 'B issue 1 1\nA arrive\nA send 1 61\nB arrive\nB take 1\n';

// How long a text field of a browser takes for a text, without the page.
async function bareSpan(tab, text) {
  await tab.run(() => {
    const bare = document.getElementById('script').cloneNode();
    bare.id = 'bare';
    document.querySelector('.editor').append(bare);
  });
  const span = await fastest(
    tab,
    text => {
      document.getElementById('bare').value = '';
      document.getElementById('bare').value = text;
    },
    text,
  );
  await tab.run(() => document.getElementById('bare').remove());
  return span;
}

test('a script of 20,000 lines', async t => {
  const tab = await open(linked({ capacity: 8, version: 1, script: '' }));
  const script = ROUND.repeat(4000);
  const bare = await bareSpan(tab, script);
  const most = mostBeside(bare);
  const pasted = await fastest(
    tab,
    script => {
      const field = document.getElementById('script');
      field.value = '';
      field.value = script;
      field.dispatchEvent(new Event('input', { bubbles: true }));
    },
    script,
  );
  // On a busy machine the field alone can take a second.
  isQuick('to paste it, beside what the field takes', pasted - bare, most);
  const place = () => tab.run(() => document.getElementById('place').textContent);
  assert.equal(await place(), 'Event 20000 of 20000');
  const spans = {};
  const pressed = selector => fastest(tab, selector => document.querySelector(selector).click(), selector);
  spans.back = await pressed('#back');
  spans.forward = await pressed('#forward');
  spans.take = await pressed('[aria-label="Take, B, channel 1"]');
  spans.refused = await pressed('[aria-label="Send, A, channel 1"]');
  assert.equal(await place(), 'Event 20010 of 20010');
  spans.undo = await pressed('#undo');
  assert.equal(await place(), 'Event 20005 of 20005');
  spans.scrolled = await fastest(tab, () => (document.querySelector('.editor').scrollTop = document.querySelector('.editor').scrollTop > 9999 ? 5000 : 200000));
  Object.entries(spans).forEach(([name, span]) => isQuick(name, span, most));
  t.diagnostic(JSON.stringify({ bare, pasted, ...spans }, (key, it) => (typeof it === 'number' ? Math.round(it) : it)));
});

// Counts the calls of the module.
const COUNTING = `
  window.calls = {};
  const instantiate = WebAssembly.instantiate;
  WebAssembly.instantiate = async (...words) => {
    const { exports } = (await instantiate(...words)).instance;
    const counting = name => (...words) => {
      calls[name] = (calls[name] ?? 0) + 1;
      return exports[name](...words);
    };
    return { instance: { exports: { ...exports, replay: counting('replay'), standing: counting('standing') } } };
  };`;

test('a click replays the script once, and a step in it not at all', async () => {
  const tab = await open('about:blank', { isPage: false });
  await tab.ask('Page.addScriptToEvaluateOnNewDocument', { source: COUNTING });
  await tab.go(linked({ capacity: 8, version: 1, script: ROUND.repeat(10) }));
  const callsOf = selector =>
    tab.run(selector => {
      window.calls = {};
      document.querySelector(selector).click();
      return window.calls;
    }, selector);
  assert.deepEqual(await callsOf('#back'), { standing: 1 });
  assert.deepEqual(await callsOf('#forward'), { standing: 1 });
  assert.deepEqual(await callsOf('[aria-label="Take, B, channel 1"]'), { replay: 1, standing: 1 });
});

test('of 20,000 answers only those in view have elements, and each can be reached', async () => {
  const tab = await open(linked({ capacity: 8, version: 1, script: ROUND.repeat(4000) }));
  await tab.until(() => document.getElementById('script').value !== '');
  const count = () => tab.run(() => document.querySelectorAll('#answers li').length);
  const numbers = () => tab.run(() => Array.from(document.querySelectorAll('#answers button'), it => Number(it.dataset.number)));
  assert.ok((await count()) < 150, `${await count()}`);
  assert.ok((await numbers()).includes(20000));
  await tab.run(() => (document.querySelector('.editor').scrollTop = 22 * 9999));
  await tab.until(() => document.querySelector('#answers [data-number="10000"]') !== null);
  assert.ok((await count()) < 150, `${await count()}`);
  const first = await tab.run(() => document.querySelector('#answers [data-number="10000"]').textContent);
  assert.equal(first, 'took 61');
  const [line, answer] = await tab.run(() => {
    const top = it => it.getBoundingClientRect().top;
    return [top(document.getElementById('script')) + 9999 * 22, top(document.querySelector('#answers [data-number="10000"]'))];
  });
  assert.ok(Math.abs(line - answer) < 2, `${line} ${answer}`);
});

test('a long script that is edited at once has the line of the click before', async () => {
  const script = ROUND.repeat(1000);
  const tab = await open(linked({ capacity: 8, version: 1, script }));
  const last = await tab.run(() => {
    const field = document.getElementById('script');
    document.querySelector('[aria-label="Take, B, channel 1"]').click();
    const before = field.value.endsWith('B take 1\nB take 1\n');
    field.focus();
    return [before, field.value.endsWith('B take 1\nB take 1\n')];
  });
  assert.deepEqual(last, [false, true]);
});

test('a megabyte of hexadecimal', async t => {
  const tab = await open(linked({ capacity: 8, version: 1, script: '' }));
  const most = await mostOf(tab);
  await press(tab, 'The bytes of a stream');
  const spans = {};
  for (const [name, part, count, said] of [
    ['digits', '1100026869', 209715, '1,048,575 bytes, 209,715 whole frames, and no fault.'],
    ['spaced', '21 00 00 00 05 ', 69905, '349,525 bytes, 69,905 whole frames, and no fault.'],
  ]) {
    spans[name] = await fastest(
      tab,
      text => {
        const field = document.getElementById('hex');
        field.value = '';
        field.value = text;
        field.dispatchEvent(new Event('input', { bubbles: true }));
      },
      part.repeat(count),
    );
    assert.equal(await tab.run(() => document.getElementById('stream-said').textContent), `The digits are too many to be shown here: ${said}`);
  }
  t.diagnostic(JSON.stringify({ most, ...spans }, (key, it) => (typeof it === 'number' ? Math.round(it) : it)));
  Object.entries(spans).forEach(([name, span]) => isQuick(name, span, most));
});

// Inserts a text as a paste does, and returns how long it took until the browser had shown what changed: the fastest of
// three times.
async function inserted(tab, id, text) {
  await tab.run(id => {
    const field = document.getElementById(id);
    window.spans = [];
    const begin = () => {
      const began = performance.now();
      requestAnimationFrame(() => setTimeout(() => spans.push(performance.now() - began)));
    };
    field.addEventListener('beforeinput', begin, { capture: true });
    field.focus();
  }, id);
  for (let count = 1; count <= 3; count += 1) {
    await write(tab, id, '');
    const late = new Promise((resolve, reject) => setTimeout(reject, 60 * SECOND, new Error('the browser inserts the text by itself')).unref());
    await Promise.race([tab.ask('Input.insertText', { text }), late]);
    await tab.until(count => spans.length === count, count);
  }
  return tab.run(() => Math.min(...spans));
}

test('a paste of 20,000 lines, and of a megabyte of hexadecimal', async t => {
  const tab = await open(linked({ capacity: 8, version: 1, script: 'A arrive\n' }));
  const most = await mostOf(tab);
  const script = ROUND.repeat(4000);
  const spans = { script: await inserted(tab, 'script', script) };
  assert.equal(await tab.run(() => document.getElementById('place').textContent), 'Event 20000 of 20000');
  await tab.until(script => document.getElementById('script').value === script, script);
  await press(tab, 'The bytes of a stream');
  spans.hex = await inserted(tab, 'hex', '1100026869'.repeat(209715));
  assert.match(await tab.run(() => document.getElementById('stream-said').textContent), /1,048,575 bytes, 209,715 whole frames/);
  t.diagnostic(JSON.stringify({ most, ...spans }, (key, it) => (typeof it === 'number' ? Math.round(it) : it)));
  Object.entries(spans).forEach(([name, span]) => isQuick(name, span, most));
});

test('500 clicks, of which each answers, and the address of the last one', async t => {
  const tab = await open(linked({ capacity: 8, version: 1, script: '' }));
  const [spans, changes] = await tab.run(() => {
    const changes = [];
    const change = history.replaceState;
    history.replaceState = (...words) => {
      changes.push(performance.now());
      change.apply(history, words);
    };
    const buttons = ['Issue, B', 'Send, A', 'Take, B'].map(name => document.querySelector(`[aria-label="${name}, channel 1"]`));
    const lanes = document.querySelectorAll('.lane');
    // As many guarantees as a message spends, so that each click adds an event.
    document.querySelector('[aria-label="Issue: bytes, B, channel 1"]').value = 2;
    const order = [buttons[0], lanes[1].querySelector('button'), buttons[1], lanes[0].querySelector('button'), buttons[2]];
    const spans = Array.from({ length: 500 }, (_, at) => {
      const began = performance.now();
      order[at % order.length].click();
      document.body.getBoundingClientRect();
      return performance.now() - began;
    });
    return [spans, changes];
  });
  const slowest = [...spans].sort((a, b) => b - a).slice(0, 10);
  t.diagnostic(`the slowest ${slowest.map(Math.round)} ms, all ${Math.round(spans.reduce((sum, it) => sum + it))} ms`);
  // A busy machine may stand still during some of them.
  isQuick('the tenth slowest click', slowest[9]);
  // Safari allows 100 changes of the address in 30 seconds.
  const isSparse = (at, place) => place < 90 || at - changes[place - 90] > 30 * SECOND;
  assert.ok(changes.length > 0 && changes.every(isSparse), `${changes.length} changes of the address`);
  assert.equal(await tab.run(() => document.getElementById('place').textContent), 'Event 500 of 500');
  await tab.until(() => location.href === document.getElementById('link').href);
  await tab.reload();
  assert.equal(await tab.run(() => document.getElementById('place').textContent), 'Event 500 of 500');
});

test('a session that is too long for a link says so', async () => {
  const tab = await open(linked({ capacity: 8, version: 1, script: '' }));
  await tab.run(() => {
    const field = document.getElementById('script');
    field.value = `# ${'x'.repeat(1000000)}\nB issue 1 5\n`;
    field.dispatchEvent(new Event('input', { bubbles: true }));
  });
  const shown = await tab.run(() => [document.getElementById('link').checkVisibility(), document.getElementById('copy').disabled, document.getElementById('copied').textContent, location.hash]);
  assert.deepEqual(shown, [false, true, 'This session is too long for a link: copy its script.', '']);
});
