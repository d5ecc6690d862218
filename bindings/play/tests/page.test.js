// The page in a browser: a session that is built there by clicks has the answers of lcmux.
import assert from 'node:assert/strict';
import { readFile, rm, writeFile } from 'node:fs/promises';
import { tmpdir } from 'node:os';
import { join } from 'node:path';
import { test } from 'node:test';
import { TOUR, TOUR_LINES } from '../src/tour.js';
import { answersOf, linked, open, press, state, useBrowser, write } from './page.js';
import { programs } from './programs.js';
import { dice, someSession, someStream } from './random.js';

useBrowser();

test('the tour goes its twelve steps by the button that it marks, and answers as lcmux does', async () => {
  const tab = await open();
  assert.equal(TOUR.length, 12);
  for (const [at, line] of TOUR_LINES.entries()) {
    const marked = await tab.run(() => {
      const next = document.querySelectorAll('button.next');
      next[0].click();
      return next.length;
    });
    assert.equal(marked, 1);
    const { script } = await state(tab);
    assert.equal(script.split('\n')[at], line);
  }
  const { answers, said } = await state(tab);
  assert.deepEqual(answers, answersOf({ capacity: 8, version: 1, script: TOUR_LINES.join('\n') }));
  const first = ['refused 4 held 0', 'ok', 'arrived', 'ok', 'arrived'];
  const full = ['ok', 'arrived', 'refused 4 held 0', 'ok', 'arrived', 'ok', 'arrived', 'took 6869', 'took 6869'];
  assert.deepEqual(answers, [...first, ...full, 'ok', 'arrived', 'absolved 4', 'arrived', 'ok', 'arrived', 'ended']);
  assert.match(said, /ended/);
  assert.equal(await tab.run(() => document.getElementById('tour-title').textContent), 'That is all of it');
  await press(tab, 'Step back');
  assert.equal(await tab.run(() => document.getElementById('tour-title').textContent), `12 of 12: ${TOUR[11].idea}`);
});

test('a session is clicked together with every button', async () => {
  const tab = await open();
  await press(tab, 'Leave the tour');
  await write(tab, 'version', '2', 'change');
  const rows = [
    ['Issue, B, channel 1', 'B issue 1 5'],
    ['Deliver a byte', null],
    ['Send, A, channel 1', 'A send 1 6869'],
    ['Plead to hold, B, channel 1', 'B plead 1 0'],
    ['Honour the plead, A, channel 1', 'A honour 1'],
    ['Absolve, A, channel 1', 'A absolve 1 1'],
    ['Limit sending to, A, channel 1', 'A limit-sending 1 0'],
    ['Limit issuing to, B, channel 1', 'B limit-receiving 1 0'],
    ['Take, B, channel 1', 'B take 1'],
    ['Finish, A, channel 1', 'A finish 1'],
    ['Issue, A, channel 1', 'A issue 1 5'],
    ['Send, B, channel 1', 'B send 1 6869'],
    ['Finish, B, channel 1', 'B finish 1'],
    ['Deliver a frame to A', 'A arrive'],
    ['Deliver a frame to B', 'B arrive'],
  ].filter(([, line]) => line !== null);
  for (const [name] of rows) {
    await press(tab, name);
  }
  const script = rows.map(([, line]) => `${line}\n`).join('');
  const shown = await state(tab);
  assert.equal(shown.script, script);
  assert.deepEqual(shown.answers, answersOf({ capacity: 8, version: 2, script }));
  const [bytes, all] = await tab.run(() => {
    const to = Array.from(document.querySelectorAll('.lane')[0].querySelectorAll('button'));
    to[1].click();
    const label = to[2].textContent;
    to[2].click();
    return [label, document.getElementById('script').value];
  });
  const lines = all.split('\n');
  assert.equal(lines.at(-3), 'B deliver 1');
  const left = /\d+/.exec(bytes)[0];
  assert.equal(lines.at(-2), `B deliver ${left}`);
  const { answers } = await state(tab);
  assert.deepEqual(answers, answersOf({ capacity: 8, version: 2, script: all }));
  assert.ok(answers.at(-1).startsWith(`delivered ${left} bytes `), answers.at(-1));
});

test('random sessions, by their links, have the answers of lcmux, and their bars add up', async () => {
  const roll = dice(7);
  const tab = await open();
  for (let count = 0; count < 25; count++) {
    const session = someSession(roll, 60);
    await tab.go('about:blank').catch(() => {});
    await tab.go(linked(session));
    const shown = await state(tab);
    assert.deepEqual([shown.script, shown.capacity, shown.version, shown.answers], [session.script, session.capacity, session.version, answersOf(session)]);
    const bars = await tab.run(() =>
      Array.from(document.querySelectorAll('.ring'), ring => ({
        sum: ring.parentElement.querySelector('.sum').textContent,
        parts: Array.from(ring.children).filter(it => !it.hidden).map(it => [it.textContent, Number(it.style.flexGrow)]),
      })),
    );
    assert.equal(bars.length, 2);
    for (const { sum, parts } of bars) {
      const [, held, wire, buffered, free, total] = /^held (\d+) \+ on the wire (\d+) \+ buffered (\d+) \+ free (\d+) = (\d+)$/.exec(sum).map(Number);
      assert.deepEqual([held + wire + buffered + free, total], [session.capacity, session.capacity]);
      const named = [['held', held], ['on the wire', wire], ['buffered', buffered], ['free', free]];
      assert.deepEqual(parts, named.filter(([, count]) => count > 0).map(([name, count]) => [`${name} ${count}`, count]));
    }
  }
});

test('each refusal says its number, its sentence and what would have allowed it', async () => {
  const rows = [
    ['A send 1 -', 1, 'the message is empty', 'a message of at least 1 byte, with a guarantee for it.'],
    [`A send 1 ${'61'.repeat(65536)}`, 2, 'the message is too long', null],
    ['B issue 1 8\nA arrive\nA limit-sending 1 2\nA send 1 616161', 3, 'the message is longer than the limit on sending leaves (left 2)', 'a message of at most 2 bytes.'],
    ['B issue 1 8\nA arrive\nA limit-sending 1 1\nA send 1 6161', 3, 'the message is longer than the limit on sending leaves (left 1)', 'a message of at most 1 byte.'],
    ['A send 1 61', 4, 'the message is longer than the guarantees that are held (held 0)', '1 guarantee more, issued by B and arrived at A.'],
    ['A send 1 6869', 4, 'the message is longer than the guarantees that are held (held 0)', '2 guarantees more, issued by B and arrived at A.'],
    ['B issue 1 2\nA send 1 6869', 4, 'the message is longer than the guarantees that are held (held 0)', 'what is on the wire to A, once it has arrived.'],
    ['B issue 1 8\nA arrive\nA send 1 6161616161616161\nB arrive\nA send 1 62', 4, 'the message is longer than the guarantees that are held (held 0)', '1 guarantee more, issued by B when it has taken messages, and arrived at A.'],
    ['B issue 1 0', 5, 'the amount is zero', 'an amount of at least 1.'],
    ['B issue 1 5\nA arrive\nA absolve 1 6', 6, 'more would be absolved than is held (held 5)', 'at most 5.'],
    ['A limit-sending 1 4611686018427387905', 7, 'the bound is above 2^62', 'a bound of at most 2^62, which is 4611686018427387904.'],
    ['A limit-sending 1 5\nA limit-sending 1 6', 8, 'the bound is above what an earlier limit leaves (left 5)', 'at most 5.'],
    ['B limit-receiving 1 3\nB issue 1 4', 9, 'more would be issued than the limit on receiving leaves (left 3)', 'at most 3.'],
    ['B issue 1 5\nB issue 1 4', 10, 'more would be issued than the receiving ring has room for (room 3)', 'at most 3, as much as is free.'],
    ['B issue 1 8\nA arrive\nA send 1 6869\nB arrive\nB issue 1 1', 10, 'more would be issued than the receiving ring has room for (room 0)', 'room: B takes a message first.'],
    ['B issue 1 5\nB plead 1 5', 11, 'the target is not below the guarantees outstanding (outstanding 5)', 'a target below 5.'],
    ['A finish 1', 17, 'version 1 of the format cannot finish a channel', 'version Two, chosen above.'],
  ];
  const tab = await open();
  for (const [script, number, sentence, allowed] of rows) {
    const session = { capacity: 8, version: 1, script: `${script}\n` };
    await write(tab, 'script', session.script);
    const shown = await state(tab);
    assert.equal(shown.said.includes(`Refusal ${number}: ${sentence}. Nothing has changed.`), true, shown.said);
    if (allowed !== null) {
      assert.equal(shown.allowed, allowed);
      await press(tab, 'Show that');
      const then = await state(tab);
      assert.equal(then.answers.at(-1), 'ok');
      assert.deepEqual(then.answers, answersOf({ ...session, version: then.version, script: then.script }));
      await press(tab, 'Undo');
      assert.equal((await state(tab)).script, session.script);
      await write(tab, 'version', '1', 'change');
    }
  }
  await write(tab, 'version', '2', 'change');
  await write(tab, 'script', 'A finish 1\nA send 1 61\n');
  const shown = await state(tab);
  assert.match(shown.said, /Refusal 15: the channel is finished/);
  assert.equal(shown.allowed, 'nothing that this page knows of: the refusal is for good.');
});

test('steps back and forward show what stood then, and an event from there on replaces what came after', async () => {
  const script = 'B issue 1 5\nA arrive\nA send 1 6869\nB arrive\nB take 1\n';
  const tab = await open(linked({ capacity: 8, version: 1, script }));
  const sums = [];
  for (let count = 5; count >= 0; count -= 1) {
    const { place } = await state(tab);
    assert.equal(place, `Event ${count} of 5`);
    sums.push(await tab.run(() => document.querySelector('.sum').textContent));
    if (count > 0) {
      await press(tab, 'Back');
    }
  }
  const sum = (held, wire, buffered, free) => `held ${held} + on the wire ${wire} + buffered ${buffered} + free ${free} = 8`;
  assert.deepEqual(sums, [sum(3, 0, 0, 5), sum(3, 0, 2, 3), sum(3, 2, 0, 3), sum(5, 0, 0, 3), sum(0, 5, 0, 3), sum(0, 0, 0, 8)]);
  await press(tab, 'Forward');
  await press(tab, 'Take, B, channel 1');
  assert.equal((await state(tab)).script, 'B issue 1 5\nB take 1\n');
  await press(tab, 'Undo');
  assert.equal((await state(tab)).script, script);
  await press(tab, 'Start anew');
  assert.equal((await state(tab)).script, '');
});

test('a link that is followed, the slider and the answers lead elsewhere', async () => {
  const session = { capacity: 8, version: 1, script: 'B issue 1 5\nA arrive\n' };
  const followed = { capacity: 16, version: 2, script: 'A arrive\n' };
  const tab = await open(linked(session));
  const shown = async () => {
    const { capacity, version, script } = await state(tab);
    return { capacity, version, script };
  };
  await tab.run(hash => (location.hash = hash), new URL(linked(followed)).hash);
  await tab.until(() => document.getElementById('script').value === 'A arrive\n');
  assert.deepEqual(await shown(), followed);
  await press(tab, 'Undo');
  assert.deepEqual(await shown(), session);
  await write(tab, 'at', '1');
  assert.equal((await state(tab)).place, 'Event 1 of 2');
  await tab.run(() => document.querySelectorAll('#answers li.event')[1].click());
  assert.equal((await state(tab)).place, 'Event 2 of 2');
});

test('another channel opens, and the one before closes', async () => {
  const tab = await open();
  await press(tab, 'Leave the tour');
  await tab.run(() => document.querySelector('[aria-controls=channel-3]').click());
  const open3 = await tab.run(() => Array.from(document.querySelectorAll('.channel [aria-expanded=true]'), it => it.getAttribute('aria-controls')));
  assert.deepEqual(open3, ['channel-3']);
  const visible = await tab.run(() => Array.from(document.querySelectorAll('.directions'), it => it.checkVisibility()).filter(Boolean).length);
  assert.equal(visible, 1);
  await press(tab, 'Issue, A, channel 3');
  await press(tab, 'Issue, B, channel 3');
  assert.equal((await state(tab)).script, 'A issue 3 5\nB issue 3 5\n');
  const words = 'held 0, wire 5, buffered 0, free 3';
  assert.equal(await tab.run(() => document.querySelectorAll('.summary')[3].textContent), `A to B: ${words}; B to A: ${words}`);
});

test('to point at a part of a bar, or to step onto it, tells what it is worth', async () => {
  const tab = await open(linked({ capacity: 8, version: 1, script: 'B issue 1 5\nA arrive\nB issue 1 2\n' }));
  const told = await tab.run(() => {
    const [held, wire, buffered, room] = document.querySelector('.ring').children;
    const worth = () => document.querySelector('.worth').textContent.slice(0, 28);
    const point = part => part.dispatchEvent(new PointerEvent('pointerenter'));
    return [buffered.checkVisibility(), worth(), point(room) && worth(), wire.focus() ?? worth(), held.click() ?? worth()];
  });
  const held = '5 guarantees that A holds. I';
  assert.deepEqual(told, [false, held, '1 byte neither promised nor ', '2 bytes promised by B and no', held]);
});

test('the link is copied', async () => {
  const tab = await open(linked({ capacity: 8, version: 1, script: 'B issue 1 5\n' }));
  await tab.run(() => Object.defineProperty(navigator, 'clipboard', { value: { writeText: async text => (window.written = text) } }));
  await press(tab, 'Copy the link');
  await tab.until(() => document.getElementById('copied').textContent === 'copied');
  assert.equal(await tab.run(() => window.written), linked({ capacity: 8, version: 1, script: 'B issue 1 5\n' }));
});

test('the link carries the script', async () => {
  const tab = await open();
  const session = { capacity: 16, version: 2, script: '# ümlaut & 100% + #\nB issue 1 5\n\nA arrive\n' };
  await write(tab, 'capacity', '16', 'change');
  await write(tab, 'version', '2', 'change');
  await write(tab, 'script', session.script);
  const href = await tab.run(() => document.getElementById('link').href);
  assert.equal(href, linked(session));
  assert.equal(await tab.run(() => location.href), href);
  const other = await open(href);
  const { script, capacity, version, answers } = await state(other);
  assert.deepEqual({ script, capacity, version }, session);
  assert.deepEqual(answers, ['ok', 'arrived']);
});

test('bad lines and bad links are said', async () => {
  const tab = await open(linked({ capacity: 8, version: 1, script: 'B issue 1 5\n\nA send 1 6\nA arrive\n' }));
  const shown = await state(tab);
  const why = 'the message “6” has an odd number of digits, and each byte has two';
  assert.equal(shown.fault, `Line 3 of the script: ${why}.`);
  assert.deepEqual(shown.answers, ['ok', '']);
  assert.equal(await tab.run(() => document.querySelector('#answers li.bad').textContent), why);
  const wrong = await open(linked({ capacity: 0, version: 1, script: 'A arrive\n' }));
  assert.equal((await state(wrong)).fault, 'A ring has 1 to 16,777,216 bytes.');
});

test('the examples are those of the repository', async () => {
  const tab = await open();
  const shown = await tab.run(() => Array.from(document.querySelectorAll('#example option'), it => [it.value, it.textContent]).slice(1));
  assert.equal(shown.length, 9);
  for (const [name, title] of shown) {
    await write(tab, 'example', name, 'change');
    const { script, capacity, version, answers } = await state(tab);
    const [, said, ring, writes] = /^# (.*): lcmux replay (\d+)(?: (\d))?\n/.exec(script);
    assert.deepEqual([title, capacity, version], [said, Number(ring), Number(writes ?? 1)]);
    assert.equal(script, await readFile(new URL(`../../../examples/${name}.script`, import.meta.url), 'utf8'));
    assert.deepEqual(answers, answersOf({ capacity, version, script }));
  }
});

test('the picture is that of lcmux_chart, and its words are there', async () => {
  const script = await readFile(new URL('../../../examples/ideas.script', import.meta.url), 'utf8');
  const tab = await open(linked({ capacity: 8, version: 1, script }));
  await tab.until(() => document.querySelector('#picture img') !== null);
  const [svg, alt, words] = await tab.run(async () => {
    const image = document.querySelector('#picture img');
    await image.decode();
    return [await (await fetch(image.src)).text(), image.alt, Array.from(document.querySelectorAll('#picture-words li'), it => it.textContent)];
  });
  assert.equal(svg, programs.chart({ capacity: 8, version: 1, script }).shown);
  assert.equal(alt, 'Two peers with receiving rings of 8 bytes: 13 events');
  assert.equal(words.length, 13 + 5);
  assert.equal(words[0], 'A: send 2 bytes on channel 1: refused 4: the message is longer than the guarantees that are held (held 0).');
});

test('the stream of bytes: frames and faults with their places', async () => {
  const tab = await open();
  await press(tab, 'The bytes of a stream');
  const shown = () =>
    tab.run(() => [
      document.getElementById('stream-said').textContent,
      Array.from(document.querySelectorAll('#frames tr'), row => Array.from(row.cells, it => it.textContent.trim())),
    ]);
  await write(tab, 'hex', '21 00 00 00 05 0x11,00,02:68 69 11 00 00');
  const [said, rows] = await shown();
  assert.equal(said, '13 bytes, 2 whole frames, and then the fault F2 in the frame at byte 10: a message has length 0 (send 1 0).');
  assert.deepEqual(rows, [
    ['1', '0', '5', '21 00 00 00 05', '1 issue 5'],
    ['2', '5', '10', '11 00 02 68 69', '1 send “hi”'],
    ['fault', '10', '', '11 00 00', 'F2: a message has length 0 (send 1 0)'],
  ]);
  await write(tab, 'hex', '4C434D02 71');
  assert.equal((await shown())[0], '5 bytes, 1 whole frame, and no fault.');
  await write(tab, 'hex', '2');
  assert.equal((await shown())[0], '');
});

test('a dropped file, and a megabyte of garbage', async () => {
  const tab = await open();
  await press(tab, 'The bytes of a stream');
  const roll = dice(8);
  const many = Buffer.concat(Array.from({ length: 800 }, () => Buffer.from([0x11, 0, 2, 0x68, 0x69])));
  const files = [
    ['many', many, '4,000 bytes, 800 whole frames, and no fault.'],
    ['garbage', Buffer.from(Array.from({ length: 1 << 20 }, (_, at) => (at === 0 ? 0x99 : roll(256)))), '1,048,576 bytes, 0 whole frames, and then the fault F1 in the frame at byte 0: a byte names no kind or channel, or is not the greeting\'s (0x99).'],
  ];
  for (const [name, bytes, said] of files) {
    const file = join(tmpdir(), `lcmux-${process.pid}-${name}`);
    await writeFile(file, bytes);
    const { root } = await tab.ask('DOM.getDocument');
    const { nodeId } = await tab.ask('DOM.querySelector', { nodeId: root.nodeId, selector: '#file' });
    await tab.ask('DOM.setFileInputFiles', { nodeId, files: [file] });
    await tab.until((name, said) => document.getElementById('stream-said').textContent === `${name}: ${said}`, `lcmux-${process.pid}-${name}`, said);
    await rm(file);
  }
  for (const [length, id, said] of [
    [16777217, 'why', 'dropped has 16,777,217 bytes, and at most 16,777,216 bytes are read.'],
    [5, 'stream-said', 'dropped: 5 bytes, 1 whole frame, and no fault.'],
  ]) {
    await tab.run(length => {
      const bytes = new Uint8Array(length);
      bytes.set([0x21, 0, 0, 0, 5]);
      const data = new DataTransfer();
      data.items.add(new File([bytes], 'dropped'));
      document.getElementById('view-stream').dispatchEvent(new DragEvent('drop', { dataTransfer: data, bubbles: true, cancelable: true }));
    }, length);
    await tab.until((id, said) => document.querySelector(id === 'why' ? '#drop span.why' : `#${id}`).textContent === said, id, said);
  }
});

test('of many frames some are shown at first, and then the others', async () => {
  const tab = await open();
  await press(tab, 'The bytes of a stream');
  await write(tab, 'hex', '1100026869'.repeat(799) + '2100000007');
  const rows = () => tab.run(() => Array.from(document.querySelectorAll('#frames tr'), row => row.cells[1].textContent));
  assert.equal((await rows()).length, 500);
  assert.equal(await tab.run(() => document.getElementById('stream-drawn').hidden), true);
  await press(tab, 'Show 300 more frames (300 left)');
  assert.deepEqual(await rows(), Array.from({ length: 800 }, (_, at) => `${5 * at}`));
  assert.equal(await tab.run(() => document.getElementById('more').hidden), true);
});

test('random streams: the rows are the lines of lcmux frames', async () => {
  const roll = dice(9);
  const tab = await open();
  await press(tab, 'The bytes of a stream');
  for (let count = 0; count < 25; count++) {
    const bytes = someStream(roll);
    await write(tab, 'hex', Buffer.from(bytes).toString('hex'));
    const { shown, told } = programs.frames(bytes);
    const [rows, said] = await tab.run(() => [document.querySelectorAll('#frames tr:not(.fault)').length, document.getElementById('stream-said').textContent]);
    assert.equal(bytes.length === 0 ? 0 : rows, shown.split('\n').length - 1);
    const fault = /F\d in the frame at byte \d+/.exec(told)?.[0];
    assert.equal(fault === undefined ? /fault F/.test(said) : !said.includes(fault), false, said);
  }
});

test('by the keyboard alone: the tour, and the other view', async () => {
  const tab = await open();
  const focused = () => tab.run(() => document.activeElement.getAttribute('aria-label') ?? document.activeElement.textContent);
  const reach = async name => {
    for (let left = 120; left > 0; left -= 1) {
      if ((await focused()) === name) {
        return;
      }
      await tab.press('Tab');
    }
    throw new Error(`the keyboard does not reach ${name}`);
  };
  await reach('Do it for me');
  await tab.press('Enter');
  await tab.press('Enter');
  assert.deepEqual((await state(tab)).answers, ['refused 4 held 0', 'ok']);
  await reach('Take, B, channel 1');
  await tab.press(' ');
  assert.deepEqual((await state(tab)).answers, ['refused 4 held 0', 'ok', 'empty']);
  assert.equal(await focused(), 'Take, B, channel 1');
  await tab.run(() => document.getElementById('tab-session').focus());
  await tab.press('ArrowRight');
  assert.equal(await focused(), 'The bytes of a stream');
  assert.equal(await tab.run(() => document.getElementById('view-session').hidden), true);
});

test('every control has a name, every part of a bar its worth, and no identity is double', async () => {
  const tab = await open(linked({ capacity: 8, version: 2, script: 'B issue 1 5\nA deliver 6\n' }));
  const { nodes } = await tab.ask('Accessibility.getFullAXTree');
  const controls = nodes.filter(({ ignored, role }) => !ignored && ['button', 'textbox', 'spinbutton', 'combobox', 'slider', 'link', 'tab', 'checkbox'].includes(role?.value));
  assert.ok(controls.length > 40);
  assert.deepEqual(controls.filter(({ name }) => !name?.value).map(({ role }) => role.value), []);
  const names = controls.map(({ name }) => name.value);
  assert.ok(names.includes('5 bytes promised by B and not held by A: under way, in guarantees that have not arrived, in messages, or in guarantees given back or waived.'));
  const calls = (from, to) => ['Send', 'Honour the plead', 'Absolve', 'Limit sending to', 'Finish'].map(it => `${it}, ${from}, channel 1`).concat(['Issue', 'Take', 'Plead to hold', 'Limit issuing to'].map(it => `${it}, ${to}, channel 1`));
  for (const [from, to] of ['AB', 'BA']) {
    const found = await tab.run(name => Array.from(document.querySelectorAll(`section[aria-label="${name}"] .calls button`), it => it.getAttribute('aria-label')), `From ${from} to ${to} on channel 1`);
    assert.deepEqual(found, calls(from, to));
  }
  const twice = await tab.run(() => Array.from(document.querySelectorAll('[id]'), it => it.id).filter((id, at, all) => all.indexOf(id) !== at));
  assert.deepEqual(twice, []);
});

test('it opens from a disk, and asks no address for anything', async () => {
  const text = await readFile(process.env.LCMUX_PAGE, 'utf8');
  assert.deepEqual(text.match(/https?:\/\/[^\s"'`)]+/g) ?? [], []);
  assert.doesNotMatch(text, /\b(?:src|href)="(?!#)/);
  const tab = await open();
  const asked = await tab.run(() => performance.getEntriesByType('resource').map(({ name }) => name).filter(name => !name.startsWith('blob:')));
  assert.deepEqual(asked, []);
});

test('a thousand events without a stall', async () => {
  const script = `${'B issue 1 1\nA arrive\nA send 1 61\nB arrive\nB take 1\n'.repeat(200)}`;
  const tab = await open(linked({ capacity: 8, version: 1, script }));
  assert.equal((await state(tab)).answers.length, 1000);
  // The fastest of several runs of each press, since a busy machine is slow at times.
  const spans = await tab.run(() => {
    const press = id => {
      const began = performance.now();
      document.getElementById(id).click();
      document.body.getBoundingClientRect();
      return performance.now() - began;
    };
    return ['back', 'forward', 'undo'].map(id => Math.min(...Array.from({ length: 7 }, () => press(id))));
  });
  assert.ok(Math.max(...spans) < 500, `${spans} ms`);
  await press(tab, 'Take, B, channel 1');
  assert.equal((await state(tab)).answers.length, 1001);
  assert.equal(await tab.run(() => document.querySelector('#picture img')), null);
  await press(tab, 'Draw the picture of 1,001 events');
  assert.equal(await tab.run(() => document.querySelector('#picture img').alt), 'Two peers with receiving rings of 8 bytes: 1001 events');
});

test('nothing is wider than its screen', async () => {
  const script = await readFile(new URL('../../../examples/channels.script', import.meta.url), 'utf8');
  for (const width of [320, 390, 800, 1280, 1920]) {
    const tab = await open(linked({ capacity: 999, version: 2, script }), { width });
    assert.ok((await tab.run(() => document.documentElement.scrollWidth)) <= width, `${width}`);
    await press(tab, 'The bytes of a stream');
    assert.ok((await tab.run(() => document.documentElement.scrollWidth)) <= width, `${width}`);
  }
});
