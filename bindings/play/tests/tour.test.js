// The tour in a browser: what each step speaks of is on the screen, and its place is kept.
import assert from 'node:assert/strict';
import { test } from 'node:test';
import { TOUR, TOUR_LINES } from '../src/tour.js';
import { answersOf, linked, open, press, state, useBrowser } from './page.js';

useBrowser();

const SIZES = [
  { width: 1366, height: 768 },
  { width: 1920, height: 1080 },
  { width: 375, height: 800 },
];

// The step of each line.
const STEPS = TOUR.flatMap(({ lines }, step) => lines.map(() => step));

// What is wrong with the places of the marked button, of the ring and of the card: parts beyond the edges of the screen
// or behind another element.
const outOfSight = (tab, channel) =>
  tab.run(channel => {
    const marked = Array.from(document.querySelectorAll('button.next'));
    const parts = { button: marked[0], ring: document.querySelector(`#channel-${channel} .ring`), card: document.getElementById('tour') };
    const isSeen = (part, x, y) => x >= 0 && y >= 0 && x < innerWidth && y < innerHeight && part.contains(document.elementFromPoint(x, y));
    const wrong = ([name, part]) => {
      const { left, right, top, bottom } = part.getBoundingClientRect();
      const [x, y] = [(left + right) / 2, (top + bottom) / 2];
      const points = [[x, top + 3], [x, bottom - 3], [left + 3, y], [right - 3, y]];
      return points.every(([x, y]) => isSeen(part, x, y)) && right > left && bottom > top ? [] : [`${name} ${[left, top, right, bottom].map(Math.round)}`];
    };
    return marked.length === 1 ? Object.entries(parts).flatMap(wrong) : [`${marked.length} marked buttons`];
  }, channel);

for (const size of SIZES) {
  test(`at ${size.width}x${size.height} each step shows its button and its ring, and the card hides neither`, async () => {
    const tab = await open(undefined, size);
    for (const [at, step] of STEPS.entries()) {
      assert.deepEqual(await outOfSight(tab, TOUR[step].channel), [], `line ${at} of the tour: ${TOUR_LINES[at]}`);
      await tab.run(() => document.querySelector('button.next').click());
    }
    assert.equal((await state(tab)).script, TOUR_LINES.map(line => `${line}\n`).join(''));
    const [card, answer] = await tab.run(() => [document.getElementById('tour').getBoundingClientRect().bottom, document.getElementById('now').getBoundingClientRect().top]);
    assert.ok(card <= answer, `the card ends at ${card} and the last answer begins at ${answer}`);
  });
}

test('a step back, a step that is done for the reader, and another width show the button and the ring, too', async () => {
  const tab = await open(undefined, SIZES[0]);
  for (let step = 0; step < TOUR.length - 1; step += 1) {
    // The reader may have scrolled to either end.
    await tab.run(top => scrollTo(0, top), step % 2 === 0 ? 1e6 : 0);
    await press(tab, 'Do it for me');
    assert.deepEqual(await outOfSight(tab, TOUR[step + 1].channel), [], `step ${step + 1}`);
  }
  await press(tab, 'Step back');
  assert.deepEqual(await outOfSight(tab, TOUR.at(-2).channel), []);
  await tab.run(() => scrollTo(0, 0));
  await tab.ask('Emulation.setDeviceMetricsOverride', { ...SIZES[2], deviceScaleFactor: 1, mobile: true });
  await tab.until(() => innerWidth === 375);
  await tab.run(() => new Promise(resolve => requestAnimationFrame(() => setTimeout(resolve))));
  assert.deepEqual(await outOfSight(tab, TOUR.at(-2).channel), []);
});

const title = tab => tab.run(() => document.getElementById('tour-title').textContent);

test('while the tour is on, the page hides what the tour does not speak of', async () => {
  const tab = await open();
  const visible = () => tab.run(() => ['#intro', '#choices', '.from-B', '.channel.c3'].map(it => document.querySelector(it).checkVisibility()));
  assert.deepEqual(await visible(), [false, false, false, false]);
  await press(tab, 'Leave the tour');
  assert.deepEqual(await visible(), [true, true, true, true]);
  await press(tab, 'Guided tour');
  assert.deepEqual(await visible(), [false, false, false, false]);
});

test('another way than the tour’s shows the whole page, and a step back leads to where it was left', async () => {
  const tab = await open();
  await press(tab, 'Do it for me');
  await press(tab, 'Do it for me');
  await press(tab, 'Take, B, channel 1');
  assert.equal(await title(tab), 'The tour goes another way');
  const { script } = await state(tab);
  assert.equal(await tab.run(() => document.getElementById('link').href), linked({ capacity: 8, version: 1, script }));
  assert.equal(await tab.run(() => document.getElementById('choices').checkVisibility()), true);
  await press(tab, 'Step back');
  assert.equal(await title(tab), `3 of 12: ${TOUR[2].idea}`);
  assert.equal((await state(tab)).script, 'A send 1 6869\nB issue 1 8\n');
});

test('a reload and a sent address keep the place on the tour', async () => {
  const tab = await open();
  await press(tab, 'Do it for me');
  await press(tab, 'Do it for me');
  const third = `3 of 12: ${TOUR[2].idea}`;
  assert.equal(await title(tab), third);
  await tab.reload();
  assert.equal(await title(tab), third);
  const other = await open(await tab.run(() => document.getElementById('link').href));
  assert.equal(await title(other), third);
  await other.run(() => document.getElementById('back').click());
  assert.equal(await title(other), `2 of 12: ${TOUR[1].idea}`);
  await other.reload();
  assert.equal(await title(other), `2 of 12: ${TOUR[1].idea}`);
  assert.equal((await state(other)).place, 'Event 1 of 2');
  await press(other, 'Leave the tour');
  await other.reload();
  assert.equal(await other.run(() => document.getElementById('tour').hidden), true);
});

test('an address without the tour shows none, and one that is followed starts it', async () => {
  const session = { capacity: 8, version: 1, script: `${TOUR_LINES[0]}\n` };
  const tab = await open(linked(session));
  const isOnTour = () => tab.run(() => !document.getElementById('tour').hidden);
  assert.equal(await isOnTour(), false);
  await tab.run(hash => (location.hash = hash), `${new URL(linked(session)).hash}&t=1`);
  await tab.until(() => !document.getElementById('tour').hidden);
  assert.equal(await title(tab), `2 of 12: ${TOUR[1].idea}`);
});

test('the page does not scroll away from a script that is written on the tour', async () => {
  const tab = await open(undefined, SIZES[2]);
  const top = () => tab.run(() => Math.round(document.getElementById('script').getBoundingClientRect().top));
  await tab.run(() => {
    document.getElementById('script').focus();
    document.getElementById('script').scrollIntoView({ block: 'center' });
  });
  const before = await top();
  await tab.ask('Input.insertText', { text: '# A' });
  await tab.until(() => location.hash.includes('s=%23+A'));
  assert.equal(await title(tab), `1 of 12: ${TOUR[0].idea}`);
  assert.equal(await top(), before);
});

test('the link past the header leaves the session in the address', async () => {
  const tab = await open();
  await press(tab, 'Do it for me');
  const hashAfter = await tab.run(
    () =>
      new Promise(resolve => {
        addEventListener('hashchange', () => setTimeout(() => resolve(location.hash)), { once: true });
        document.querySelector('.skip').click();
      }),
  );
  assert.equal(hashAfter, await tab.run(() => document.getElementById('link').hash));
  await tab.reload();
  assert.equal((await state(tab)).script, `${TOUR_LINES[0]}\n`);
});

test('one channel is full on the tour, and another goes on', async () => {
  const tab = await open();
  while ((await state(tab)).answers.length < TOUR_LINES.indexOf('B take 2') + 1) {
    await press(tab, 'Do it for me');
  }
  const script = (await state(tab)).script;
  const answers = answersOf({ capacity: 8, version: 1, script });
  const events = script.split('\n');
  const full = events.lastIndexOf('A send 1 6869');
  assert.equal(answers[full], 'refused 4 held 0');
  assert.equal(answers[events.indexOf('B take 2')], 'took 6869');
  const [first, second] = await tab.run(() => [1, 2].map(it => document.querySelector(`.channel.c${it} .summary`).textContent));
  assert.equal(first, 'A to B: held 0, wire 0, buffered 8, free 0');
  assert.equal(second, 'A to B: held 6, wire 0, buffered 0, free 2');
});

test('the page alone says what a newcomer asks', async () => {
  const tab = await open();
  await press(tab, 'Leave the tour');
  const words = await tab.run(() => Object.fromEntries(Array.from(document.querySelectorAll('#words dt'), it => [it.textContent, it.nextElementSibling.textContent])));
  const asked = {
    Ring: [/held.*\(slanted stripes\), on the wire.*\(upright stripes\), buffered.*\(solid\), and free \(gray\): neither promised/],
    Guarantee: [/one byte of send credit/i, /receiver gives it/],
    'What stops a sender': [/longer than the guarantees/, /limit/, /waits until more arrive/],
    Plead: [/takes none away/, /sender decides/],
    'A full channel': [/The other channels go on/],
    Link: [/Copy the link/, /whole session behind its #/, /send the file, too/],
  };
  for (const [word, patterns] of Object.entries(asked)) {
    patterns.forEach(pattern => assert.match(words[word], pattern));
  }
});
