// The fields and the answers in a browser: what a field refuses is said beside it, and the keyboard reaches all answers.
import assert from 'node:assert/strict';
import { test } from 'node:test';
import { linked, open, press, state, useBrowser, write } from './page.js';

useBrowser();

// How a field shows that it refuses its value: the texts that describe it, of which the visible ones count.
const refusal = (tab, selector) =>
  tab.run(selector => {
    const field = document.querySelector(selector);
    const texts = (field.getAttribute('aria-describedby') ?? '').split(' ').map(id => document.getElementById(id)).filter(it => it?.classList.contains('why') && it.checkVisibility());
    const why = texts.map(it => it.textContent).join(' ');
    const { bottom, top } = field.getBoundingClientRect();
    const distance = texts.map(it => it.getBoundingClientRect()).map(it => Math.max(it.top - bottom, top - it.bottom));
    return { why, isInvalid: field.getAttribute('aria-invalid') === 'true', said: field.validationMessage, isNear: distance.every(it => it < 60), hasFocus: document.activeElement === field };
  }, selector);

const refusedFor = why => ({ why, isInvalid: true, said: why, isNear: true });
const isTaken = { why: '', isInvalid: false, said: '', isNear: true };

async function isRefused(tab, selector, why) {
  const { hasFocus, ...shown } = await refusal(tab, selector);
  assert.deepEqual(shown, refusedFor(why));
  return hasFocus;
}

async function taken(tab, selector) {
  const { hasFocus, ...shown } = await refusal(tab, selector);
  assert.deepEqual(shown, isTaken, `${hasFocus}`);
}

const fill = (tab, selector, value, type = 'input') =>
  tab.run(
    (selector, value, type) => {
      const field = document.querySelector(selector);
      field.value = value;
      field.dispatchEvent(new Event(type, { bubbles: true }));
    },
    selector,
    value,
    type,
  );

const EMPTY = { capacity: 8, version: 1, script: '' };

test('the number of a call', async () => {
  const tab = await open(linked(EMPTY));
  const rows = [
    ['Issue', 'B', '', 'Write a whole number from 0 to 4,294,967,295, in digits.'],
    ['Issue', 'B', '-1', 'Write a whole number from 0 to 4,294,967,295, in digits: not -1.'],
    ['Issue', 'B', '1.5', 'Write a whole number from 0 to 4,294,967,295, in digits: not 1.5.'],
    ['Absolve', 'A', '4294967296', 'Write a whole number from 0 to 4,294,967,295: 4,294,967,296 is outside.'],
    ['Plead to hold', 'B', '4294967296', 'Write a whole number from 0 to 4,294,967,295: 4,294,967,296 is outside.'],
    ['Limit sending to', 'A', '18446744073709551616', 'Write a whole number from 0 to 18,446,744,073,709,551,615: 18,446,744,073,709,551,616 is outside.'],
    ['Limit issuing to', 'B', '', 'Write a whole number from 0 to 18,446,744,073,709,551,615, in digits.'],
  ];
  for (const [title, side, value, why] of rows) {
    const selector = `input[aria-label="${title}: bytes, ${side}, channel 1"]`;
    await fill(tab, selector, value);
    await press(tab, `${title}, ${side}, channel 1`);
    assert.equal(await isRefused(tab, selector, why), true, 'the focus is in the field');
    assert.equal((await state(tab)).script, '');
    await fill(tab, selector, '3');
    await taken(tab, selector);
  }
  const selector = 'input[aria-label="Limit sending to: bytes, A, channel 1"]';
  await fill(tab, selector, '9007199254740993');
  await press(tab, 'Limit sending to, A, channel 1');
  assert.equal((await state(tab)).script, 'A limit-sending 1 9007199254740993\n');
});

test('the size of the rings, up to the greatest that the library takes', async () => {
  const tab = await open(linked(EMPTY));
  for (const [value, why] of [
    ['0', 'Write a whole number from 1 to 16,777,216: 0 is outside.'],
    ['16777217', 'Write a whole number from 1 to 16,777,216: 16,777,217 is outside.'],
    ['', 'Write a whole number from 1 to 16,777,216, in digits.'],
  ]) {
    await fill(tab, '#capacity', value, 'change');
    assert.equal(await isRefused(tab, '#capacity', why), true, 'the focus is in the field');
    assert.equal(await tab.run(() => document.getElementById('capacity').labels[0].textContent.trim()), 'Ring, in bytes');
  }
  await fill(tab, '#capacity', '16777216', 'change');
  await taken(tab, '#capacity');
  const { capacity, fault } = await state(tab);
  assert.deepEqual([capacity, fault], [16777216, null]);
});

test('a size and a version that a link gives', async () => {
  const tab = await open(linked({ ...EMPTY, capacity: 16777217 }));
  await isRefused(tab, '#capacity', 'Write a whole number from 1 to 16,777,216: 16,777,217 is outside.');
  const other = await open(linked({ ...EMPTY, version: 3 }));
  await isRefused(other, '#version', 'There is no version 3: choose One or Two.');
  assert.equal((await state(other)).fault, 'There are versions One and Two.');
  await write(other, 'version', '2', 'change');
  await taken(other, '#version');
});

test('the script', async () => {
  const tab = await open(linked(EMPTY));
  await write(tab, 'script', 'B issue 1 5\nA send 7 61\n');
  await isRefused(tab, '#script', 'Line 2 of the script: “7” is no channel: channels are 0 to 6.');
  await write(tab, 'script', 'B issue 1 5\nA send 1 61\n');
  await taken(tab, '#script');
});

test('the bytes and the file of a stream', async () => {
  const tab = await open(linked(EMPTY));
  await press(tab, 'The bytes of a stream');
  await write(tab, 'hex', '21 00 0g');
  await isRefused(tab, '#hex', '“g” in line 1 is no hexadecimal digit: a byte has two of 0 to 9 and a to f.');
  await write(tab, 'hex', '21 00 00 00 0');
  await isRefused(tab, '#hex', 'There is an odd number of digits, 9, and each byte has two.');
  await write(tab, 'hex', '21 00 00 00 05');
  await taken(tab, '#hex');
  await tab.run(() => {
    const data = new DataTransfer();
    data.items.add(new File([new Uint8Array(16777217)], 'large'));
    document.getElementById('view-stream').dispatchEvent(new DragEvent('drop', { dataTransfer: data, bubbles: true, cancelable: true }));
  });
  await tab.until(() => document.getElementById('file').hasAttribute('aria-invalid'));
  await isRefused(tab, '#file', 'large has 16,777,217 bytes, and at most 16,777,216 bytes are read.');
  await write(tab, 'hex', '21 00 00 00 05');
  await taken(tab, '#file');
});

test('a file that is dropped is the page’s, and a text the browser’s', async () => {
  const tab = await open(linked(EMPTY));
  await press(tab, 'The bytes of a stream');
  const taken = isFile =>
    tab.run(isFile => {
      const data = new DataTransfer();
      isFile ? data.items.add(new File([Uint8Array.of(0x21)], 'one')) : data.setData('text/plain', '21');
      const events = ['dragover', 'drop'].map(type => new DragEvent(type, { dataTransfer: data, bubbles: true, cancelable: true }));
      return events.map(event => !document.getElementById('hex').dispatchEvent(event));
    }, isFile);
  assert.deepEqual(await taken(false), [false, false]);
  assert.deepEqual(await taken(true), [true, true]);
});

test('the keyboard reaches the answers and moves between them', async () => {
  const script = 'B issue 1 5\n# a comment\nA arrive\nA send 1 6869\nB arrive\n'.concat('B take 1\n'.repeat(96));
  const tab = await open(linked({ ...EMPTY, script }));
  const focused = () => tab.run(() => document.activeElement.closest('#answers') && Number(document.activeElement.dataset.number));
  await tab.run(() => document.getElementById('script').focus());
  await tab.press('Tab');
  assert.equal(await focused(), 100);
  const current = () => tab.run(() => Array.from(document.querySelectorAll('#answers [aria-current=step]'), it => Number(it.dataset.number)));
  const inReach = () => tab.run(() => document.querySelectorAll('#answers [tabindex="0"]').length);
  for (const [key, number] of [['ArrowUp', 99], ['ArrowUp', 98], ['ArrowDown', 99], ['Home', 1], ['ArrowUp', 1], ['ArrowDown', 2], ['End', 100], ['ArrowDown', 100], ['Home', 1], ['ArrowDown', 2]]) {
    await tab.press(key);
    assert.equal(await focused(), number, key);
    assert.equal(await inReach(), 1);
    const isSeen = await tab.run(() => {
      const [box, it] = [document.querySelector('.editor'), document.activeElement].map(it => it.getBoundingClientRect());
      return it.top >= box.top && it.bottom <= box.bottom;
    });
    assert.equal(isSeen, true, `${key}: ${number}`);
  }
  assert.deepEqual(await current(), []);
  await tab.press('Enter');
  assert.equal((await state(tab)).place, 'Event 2 of 100');
  assert.equal(await focused(), 2);
  assert.deepEqual(await current(), [2]);
  await tab.press('Tab');
  assert.equal(await focused(), null);
});

test('the focus goes on where the pressed button is disabled or hidden', async () => {
  const tab = await open(linked({ ...EMPTY, script: 'A arrive\n' }));
  const rows = [
    ['clear', 'clear'],
    ['undo', 'clear'],
    ['back', 'forward'],
    ['forward', 'back'],
    ['tour-start', 'tour-do'],
    ['tour-do', 'tour-do'],
    ['tour-back', 'tour-do'],
    ['tour-end', 'tour-start'],
  ];
  for (const [pressed, focused] of rows) {
    await tab.run(id => document.getElementById(id).focus(), pressed);
    await tab.press('Enter');
    assert.equal(await tab.run(() => document.activeElement.id), focused, pressed);
  }
});

test('the focus goes on where a refusal is allowed, nothing is on the wire, and all frames are shown', async () => {
  const tab = await open(linked({ ...EMPTY, script: 'A send 1 61\n' }));
  const enter = async find => {
    await tab.run(`() => (${find})().focus()`);
    await tab.press('Enter');
  };
  await enter(() => document.getElementById('allow'));
  assert.equal(await tab.run(() => document.activeElement.id), 'back');
  await enter(() => document.querySelectorAll('.lane')[0].querySelector('button'));
  assert.match(await tab.run(() => document.activeElement.textContent), /^A to B, .* Nothing is on the wire\.$/);
  await press(tab, 'The bytes of a stream');
  await write(tab, 'hex', '2100000001'.repeat(501));
  await enter(() => document.getElementById('more'));
  assert.equal(await tab.run(() => document.activeElement.getAttribute('aria-label')), 'The frames');
});

test('the facts of a channel, the wire and the frames, with a count of 1', async () => {
  const script = `B issue 1 8\nA arrive\nA limit-sending 1 1\nB limit-receiving 1 1\nB plead 1 1\nA arrive\nA arrive\n${'A absolve 1 1\n'.repeat(2)}B deliver 1\n`;
  const tab = await open(linked({ ...EMPTY, script }));
  const [facts, chips, lanes] = await tab.run(() =>
    ['.from-A .facts li', '.lane:first-child .chip', '.lane:first-child p'].map(it => Array.from(document.querySelectorAll(it), it => it.textContent)),
  );
  assert.deepEqual(facts, [
    'B pleads that A hold at most 1 guarantee. A keeps the plead until it honours it.',
    'A has limited itself: it may send 1 byte more.',
    'B has limited itself: it may issue 1 guarantee more.',
  ]);
  assert.match(chips[0], /limit sending to 1 · 9 bytes, 1 arrived$/);
  assert.match(lanes[0], /^A to B, version One: 19 bytes sent, 1 arrived\./);
  await write(tab, 'script', 'B issue 0 1\n'.concat('B limit-receiving 1 1\n'.repeat(40)));
  assert.equal(await tab.run(() => document.querySelectorAll('.lane')[1].querySelector('.soft').textContent), 'and 1 more frame');
  await press(tab, 'The bytes of a stream');
  await write(tab, 'hex', '2100000001'.repeat(501));
  await press(tab, 'Show 1 more frame (1 left)');
});
