// The board page in headless Chromium, held to the native library. SCREENSHOTS=FOLDER writes FOLDER/board.png.
import assert from 'node:assert/strict';
import fs from 'node:fs';
import path from 'node:path';
import test, { after, before } from 'node:test';
import { Recorder } from '../btpu.mjs';
import { writeHex } from '../frames.mjs';
import { windowSample } from '../samples.mjs';
import { NOTHING, contentOf, departuresFrom, showing, tableOf } from '../timetable.mjs';
import { chromium, serve } from './chromium.mjs';
import { chain, here, leastContrast, message, natively, octets, piece, pieceIn, sample, sample00, temporary, unnamed, web } from './common.mjs';
import { withStack } from './starve.mjs';

const TALL = { width: 1600, height: 900 };
const expected = natively(sample), expected00 = natively(sample00, { draft: '00' });
const firstEnd = expected.bundles[0].frame;
const text = (words) => [...new TextEncoder().encode(words)];
const bundle = (words) => Uint8Array.from(message(2, 0, text(words)));

let site, browser;
before(async () => {
  site = await serve({ '/': web, '/test/': here });
  browser = await chromium();
});
after(async () => {
  await browser?.close();
  site?.close();
});

const address = (name, words = '') => `${site.address}/board.html?board=${name}&${words}`;
const ready = (page) => page.until('document.body.dataset.ready');

async function reopen(page, url) {
  await page.open(url);
  await ready(page);
}

/** A test with a board of its own, of which no error may be logged. `prepare` is run in the page before its own script. */
function boardTest(title, { name, words = 'now=07:10', size = TALL, prepare = '' }, run) {
  test(title, { timeout: 30000 }, async () => {
    const page = await browser.page('about:blank', size);
    try {
      if (prepare !== '') await page.send('Page.addScriptToEvaluateOnNewDocument', { source: prepare });
      await reopen(page, address(name, words));
      assert.equal(await page.evaluate('document.body.dataset.ready'), 'yes', (await shown(page)).status);
      await run(page);
      assert.deepEqual(page.errors, []);
    } finally {
      await page.close();
    }
  });
}

/** Frames to the board, one after the other is taken, or all at once. */
const feed = (page, frames, { atOnce = false } = {}) => page.evaluate(`(async () => {
  const { readHex } = await import('./frames.mjs');
  const { frames } = readHex(${JSON.stringify(writeHex(frames))});
  if (${atOnce}) return Promise.all(frames.map((frame) => board.receive(frame)));
  const kept = [];
  for (const frame of frames) kept.push(await board.receive(frame));
  return kept;
})()`);

/** What the board shows. */
const shown = (page) => page.evaluate(`(() => {
  const seen = (id) => { const e = document.getElementById(id); return e.checkVisibility() ? e.textContent : ''; };
  const counts = [...document.querySelectorAll('#counts dt')].map((dt) => [dt.textContent, dt.nextElementSibling.textContent]);
  return {
    station: seen('station'), status: seen('status'), later: seen('later'), empty: seen('empty'), clock: seen('clock'),
    title: document.title,
    kind: document.getElementById('status').className,
    rows: [...document.querySelectorAll('#departures tbody tr')].map((tr) => [...tr.cells].map((td) => td.textContent)),
    notices: [...document.querySelectorAll('#notices p')].filter((p) => p.checkVisibility()).map((p) => p.textContent),
    counts: Object.fromEntries(counts),
    fits: document.documentElement.scrollHeight <= innerHeight && document.documentElement.scrollWidth <= innerWidth,
  };
})()`);

async function resize(page, width, height) {
  await page.size(width, height);
  await page.until(`innerWidth === ${width} && innerHeight === ${height}`);
  await page.evaluate('new Promise((ok) => requestAnimationFrame(() => setTimeout(ok)))');
}

/** A row as the page shows a departure. */
function rowOf({ time, line, to, via, platform, remark }) {
  const where = via === '' ? to : `${to}via ${via.replace(/\s*\/\s*/g, ' · ')}`;
  return [time, line, where, platform, remark];
}

const click = (page, id) => page.evaluate(`document.getElementById('${id}').click()`);
const keyOf = (name) => JSON.stringify(`btpu-board ${name}`);
const showingAll = ({ bundles }) => bundles.reduce((all, { octets: hex }) => showing(all, octets(hex)), NOTHING);
const nativelyShown = showingAll(expected), nativelyShown00 = showingAll(expected00);

boardTest('a board that has received nothing waits', { name: 'waits' }, async (page) => {
  const { rows, empty, status, station, clock } = await shown(page);
  assert.deepEqual({ rows, empty, status }, { rows: [], empty: 'Waiting for the timetable.', status: 'Nothing received yet.' });
  assert.deepEqual({ station, clock }, { station: 'Departures', clock: '07:10' });
  await reopen(page, address('waits', 'station=Weir'));
  assert.equal((await shown(page)).empty, 'Waiting for the timetable of Weir.');
});

const RELOAD = 'a board reloaded in mid-transfer hands the bundle out when its last piece comes';
boardTest(RELOAD, { name: 'reload', words: 'now=06:00' }, async (page) => {
  assert.ok(firstEnd > 3);
  const table = contentOf(octets(expected.bundles[0].octets));
  for (let k = 0; k < firstEnd; k++) {
    await feed(page, [sample[k]]);
    if (k % 2 === 1) await reopen(page, address('reload', 'now=06:00'));
    const { rows, status } = await shown(page);
    assert.deepEqual({ rows, status }, { rows: [], status: 'Last received 06:00. More is on the way.' });
  }
  await reopen(page, address('reload', 'now=06:00'));
  await feed(page, [sample[firstEnd]]);
  const { station, rows } = await shown(page);
  assert.equal(station, table.station);
  assert.ok(rows.length > 4);
  assert.deepEqual(rows, table.departures.slice(0, rows.length).map(rowOf));
  await reopen(page, address('reload', 'now=06:00'));
  assert.deepEqual((await shown(page)).rows, rows);
});

boardTest('all frames at once: stored once, in order, and shown as the native library hands them out', { name: 'all' }, async (page) => {
  await page.evaluate(`window.stores = 0; const set = Storage.prototype.setItem;
    Storage.prototype.setItem = function (...words) { window.stores++; return set.apply(this, words); }; undefined`);
  assert.deepEqual(await feed(page, sample, { atOnce: true }), sample.map(() => true));
  assert.equal(await page.evaluate('window.stores'), 1);
  const { counts } = await shown(page);
  assert.equal(counts['Frames refused'], `${expected.refused.length}`);
  assert.equal(counts['Frames taken'], `${sample.length - expected.refused.length}`);
  assert.equal(counts['Bundles handed out'], `${expected.bundles.length}`);
  for (const { station } of nativelyShown.timetables) {
    await reopen(page, address('all', `now=07:10&station=${encodeURIComponent(station)}`));
    const { rows, title } = await shown(page);
    const coming = departuresFrom(tableOf(nativelyShown, station), '07:10');
    assert.equal(title, `Departures ${station}`);
    assert.ok(rows.length >= Math.min(5, coming.length));
    assert.deepEqual(rows, coming.slice(0, rows.length).map(rowOf));
  }
});

const DRAFT_00 = 'in draft 00: reloaded in mid-transfer, and shown as the native library hands the bundles out';
boardTest(DRAFT_00, { name: 'all-00', words: 'draft=00' }, async (page) => {
  for (let k = 0; k < sample00.length; k += 13) {
    await feed(page, sample00.slice(k, k + 13), { atOnce: true });
    await reopen(page, address('all-00', 'draft=00&now=07:10'));
  }
  const { counts, kind } = await shown(page);
  assert.equal(counts['Frames refused'], `${expected00.refused.length}`);
  assert.equal(counts['Frames taken'], `${sample00.length - expected00.refused.length}`);
  assert.equal(counts['Bundles handed out'], `${expected00.bundles.length}`);
  assert.deepEqual([counts.Draft, kind], ['00', '']);
  assert.ok(nativelyShown00.timetables.length > 4);
  for (const { station } of nativelyShown00.timetables) {
    await reopen(page, address('all-00', `draft=00&now=07:10&station=${encodeURIComponent(station)}`));
    const { rows, notices } = await shown(page);
    assert.ok(rows.length > 2);
    assert.deepEqual(rows, departuresFrom(tableOf(nativelyShown00, station), '07:10').slice(0, rows.length).map(rowOf));
    assert.deepEqual(notices, [...nativelyShown00.notices].reverse().slice(0, notices.length));
  }
});

const OTHER_DRAFT = 'a board that is set to the other draft says so, keeps what it shows, and nothing is lost before a frame comes';
boardTest(OTHER_DRAFT, { name: 'change' }, async (page) => {
  const open = (words) => reopen(page, address('change', `now=07:10&${words}`));
  await feed(page, sample.slice(0, firstEnd + 3));
  const { rows } = await shown(page);
  assert.ok(rows.length > 0);
  await open('draft=00');
  const told = 'This board was set to draft 02 before, and is set to draft 00 now. What was on the way is dropped: 1 transfer.';
  const changed = await shown(page);
  assert.deepEqual([changed.rows, changed.status, changed.kind, changed.counts.Draft], [rows, `${told} Last received 07:10.`, 'bad', '00']);
  assert.match(changed.counts['On the way'], /^0 transfers/);
  await open('draft=02'); // no frame has come
  const back = await shown(page);
  assert.deepEqual([back.rows, back.status, back.counts.Draft], [rows, 'Last received 07:10. More is on the way.', '02']);
  await open('draft=00');
  await feed(page, sample00.slice(0, 3));
  assert.match((await shown(page)).status, /^This board was set to draft 02 before/);
  await feed(page, sample00.slice(3), { atOnce: true });
  const { status, counts } = await shown(page);
  assert.equal(status, 'Last received 07:10.');
  assert.equal(counts['Bundles handed out'], `${1 + expected00.bundles.length}`);
  await open('draft=00');
  assert.equal((await shown(page)).status, 'Last received 07:10.');
  await open(''); // draft 02, where none is named
  assert.match((await shown(page)).status, /^This board was set to draft 00 before, and is set to draft 02 now\. .* 0 transfers\./);
});

const FILES_00 = 'in draft 00: the sample, a file of hex lines, no recording, and forgetting all';
boardTest(FILES_00, { name: 'files-00', words: 'draft=00&now=07:10&demo' }, async (page) => {
  const taken = async () => Number((await shown(page)).counts['Frames taken']);
  await page.until(`document.querySelectorAll('#departures tbody tr').length > 3`);
  await reopen(page, address('files-00', 'draft=00&now=07:10'));
  const before = await taken();
  await give(page, 'good.hex', writeHex(sample00.slice(0, 5)));
  assert.equal(await taken(), before + 5);
  await give(page, 'frames.rec', (await Recorder.create()).record(sample));
  assert.equal(await taken(), before + 5);
  const { status, kind } = await shown(page);
  assert.match(status, /^The file was not taken: a recording is draft 02, and this board is set to draft 00\. Last received/);
  assert.equal(kind, 'bad');
  await click(page, 'forget');
  await click(page, 'forget');
  await page.until(`document.querySelectorAll('#departures tbody tr').length === 0`);
  const first = expected00.bundles[0].frame + 1;
  await feed(page, sample00.slice(0, first));
  assert.deepEqual([await taken(), (await shown(page)).counts['Bundles handed out'], (await shown(page)).counts.Draft], [first, '1', '00']);
});

test('a draft that there is not is told, and the board does not begin', { timeout: 30000 }, async () => {
  for (const draft of ['01', '2', '']) {
    const page = await browser.page(address('no-draft', `draft=${draft}`), TALL);
    try {
      await ready(page);
      assert.equal(await page.evaluate('document.body.dataset.ready'), 'failed');
      assert.equal((await shown(page)).status, "This board does not work: a draft is '00' or '02'.");
    } finally {
      await page.close();
    }
  }
});

// ---- windows

const mixed = { '02': await windowSample('mixed', '02'), '00': await windowSample('mixed', '00') };

for (const [draft, window] of [['02', 4], ['02', 8], ['02', 16], ['00', 4], ['00', 16]]) {
  const name = `window-${draft}-${window}`, words = `now=06:00&draft=${draft}&window=${window}`;
  boardTest(`a window of ${window} in draft ${draft}: reloaded again and again, and as the native library hands the bundles out`, { name, words }, async (page) => {
    const frames = mixed[draft], native = natively(frames, { draft, window }), all = showingAll(native);
    for (let k = 0; k < frames.length; k += 13) {
      await feed(page, frames.slice(k, k + 13), { atOnce: true });
      await reopen(page, address(name, k % 2 === 0 ? words : `now=06:00&draft=${draft}`)); // the window may be named or not
    }
    const { counts, kind, status } = await shown(page);
    assert.deepEqual([counts['Bundles handed out'], counts.Window, counts.Draft], [`${native.bundles.length}`, `${window} transfers`, draft]);
    assert.deepEqual([kind, status], ['', 'Last received 06:00.']);
    for (const { station } of all.timetables.slice(0, 2)) {
      await reopen(page, address(name, `${words}&station=${encodeURIComponent(station)}`));
      const { rows } = await shown(page);
      assert.ok(rows.length > 3);
      assert.deepEqual(rows, departuresFrom(tableOf(all, station), '06:00').slice(0, rows.length).map(rowOf));
    }
    assert.equal((await keptBy(page, name)).pool.length, 4096 * window);
  });
}

test('the mixed sample tells the windows apart', () => {
  for (const [draft, frames] of Object.entries(mixed)) assert.deepEqual([4, 8, 16].map((window) => natively(frames, { draft, window }).bundles.length), [8, 14, 18]);
});

const OTHER_WINDOW = 'a board that is set to another window says so, keeps what it shows, and nothing is lost before a frame comes';
boardTest(OTHER_WINDOW, { name: 'resized', words: 'now=07:10&window=16' }, async (page) => {
  const open = (words) => reopen(page, address('resized', `now=07:10&${words}`));
  await feed(page, sample.slice(0, firstEnd + 3));
  const { rows, counts: first } = await shown(page);
  assert.ok(rows.length > 0);
  assert.equal(first.Window, '16 transfers');
  await open('window=4');
  const told = 'This board was set to a window of 16 before, and is set to a window of 4 now. What was on the way is dropped: 1 transfer.';
  const changed = await shown(page);
  assert.deepEqual([changed.rows, changed.status, changed.kind, changed.counts.Window], [rows, `${told} Last received 07:10.`, 'bad', '4 transfers']);
  assert.match(changed.counts['On the way'], /^0 transfers/);
  await open(''); // no frame has come, and no window is named
  const back = await shown(page);
  assert.deepEqual([back.rows, back.status, back.counts.Window], [rows, 'Last received 07:10. More is on the way.', '16 transfers']);
  await open('window=8&draft=00');
  assert.match((await shown(page)).status, /^This board was set to draft 02 and a window of 16 before, and is set to draft 00 and a window of 8 now\. .* 1 transfer\./);
  await open('draft=00'); // the window of what was kept goes on with the other draft
  assert.match((await shown(page)).status, /^This board was set to draft 02 before, and is set to draft 00 now\. .* 1 transfer\./);
  assert.equal((await shown(page)).counts.Window, '16 transfers');
  await open('window=4');
  await feed(page, sample.slice(0, 3));
  assert.match((await shown(page)).status, /^This board was set to a window of 16 before/);
  await feed(page, sample, { atOnce: true });
  assert.equal((await shown(page)).status, 'Last received 07:10.');
  await open('');
  const { status, counts } = await shown(page);
  assert.deepEqual([status, counts.Window], ['Last received 07:10.', '4 transfers']);
  await click(page, 'forget');
  await click(page, 'forget');
  await page.until(`document.querySelectorAll('#departures tbody tr').length === 0`);
  assert.equal((await shown(page)).counts.Window, '8 transfers'); // as of a board that never kept anything
});

/** What a board keeps: its receiver. */
const keptBy = (page, name) => page.evaluate(`(() => {
  const text = localStorage.getItem(${keyOf(name)}), kept = JSON.parse(text.slice(text.indexOf('{')));
  const octets = (part) => [...atob(kept[part])].map((c) => c.charCodeAt(0));
  return { image: octets('image'), pool: octets('pool') };
})()`);

/** Changes what a board keeps, with a right check sum. */
const keepAs = (page, name, saved) => page.evaluate(`(() => {
  const text = localStorage.getItem(${keyOf(name)}), kept = JSON.parse(text.slice(text.indexOf('{'))), saved = ${JSON.stringify(saved)};
  for (const part in saved) kept[part] = btoa(String.fromCharCode(...saved[part]));
  const body = JSON.stringify(kept);
  let sum = 0x811c9dc5;
  for (let k = 0; k < body.length; k++) sum = Math.imul(sum ^ body.charCodeAt(k), 0x01000193);
  localStorage.setItem(${keyOf(name)}, 'btpu-board 1 ' + (sum >>> 0).toString(16).padStart(8, '0') + ' ' + body);
})()`);

/** Makes what a board of window 16 keeps what it would have kept before windows could be chosen. */
async function makeOlder(page, name) {
  const { image } = await keptBy(page, name);
  assert.equal(image[1], 16);
  await keepAs(page, name, { image: image.map((octet, k) => (k === 1 ? 0 : octet)) });
}

const OLDER = 'What was kept is from before windows could be chosen: this board goes on with its window of 16 transfers.';
for (const draft of ['02', '00']) {
  const name = `older-${draft}`, plain = `now=07:10&draft=${draft}`, table = text('Timetable: Weir\n07:30 Line R4 Platform 1 Quarry');
  const halves = [table.slice(0, 20), table.slice(20)].map((data, k) => Uint8Array.from(pieceIn(draft, 9, k, 2, data)));
  const whole = (number) => Uint8Array.from(pieceIn(draft, number, 0, 1, text('A notice')));
  boardTest(`what was kept before windows could be chosen goes on, and that is said once: draft ${draft}`, { name, words: `${plain}&window=16` }, async (page) => {
    const open = (words) => reopen(page, address(name, `${plain}&${words}`));
    await feed(page, [whole(8), halves[0], whole(9 + 12)]); // no smaller window would hold it still
    await makeOlder(page, name);
    await open('');
    const { status, kind, counts, notices } = await shown(page);
    assert.deepEqual([status, kind], [`${OLDER} Last received 07:10. More is on the way.`, '']);
    assert.deepEqual([counts.Window, counts['Bundles handed out'], notices], ['16 transfers', '2', ['A notice']]);
    await open('');
    assert.equal((await shown(page)).status, 'Last received 07:10. More is on the way.');
    await makeOlder(page, name);
    await open('window=8');
    assert.match((await shown(page)).status, /^This board was set to a window of 16 before, and is set to a window of 8 now\. .* 1 transfer\./);
    await open('window=16'); // no frame has come
    assert.match((await shown(page)).status, new RegExp(`^${OLDER}`));
    await feed(page, [halves[1]]);
    const then = await shown(page);
    assert.deepEqual([then.rows, then.status, then.kind], [[['07:30', 'R4', 'Quarry', '1', '']], 'Last received 07:10.', '']);
    assert.equal((await keptBy(page, name)).image[1], 16);
  });
}

boardTest('an image without a window is no older one where its pool is not, or its state is not sound', { name: 'odd', words: 'now=07:10&window=16' }, async (page) => {
  for (const spoil of [({ pool }) => ({ pool: pool.slice(0, 32768) }), ({ pool }) => ({ pool: pool.concat([0]) }), ({ image }) => ({ image: image.map((x, k) => (k === 3 ? 1 : x)) })]) {
    await click(page, 'forget');
    await click(page, 'forget');
    await feed(page, sample.slice(0, 3));
    await makeOlder(page, 'odd');
    await keepAs(page, 'odd', spoil(await keptBy(page, 'odd')));
    await reopen(page, address('odd', 'now=07:10'));
    const { status, counts } = await shown(page);
    assert.deepEqual([status, counts.Window], ['What was kept could not be read: this board began anew. Nothing received yet.', '8 transfers']);
    await reopen(page, address('odd', 'now=07:10&window=16'));
  }
});

test('a window that there is not is told, and the board does not begin', { timeout: 30000 }, async () => {
  for (const window of ['5', '32', '0', '', 'eight', '08', '8.0']) {
    const page = await browser.page(address('no-window', `window=${window}`), TALL);
    try {
      await ready(page);
      assert.equal(await page.evaluate('document.body.dataset.ready'), 'failed');
      assert.equal((await shown(page)).status, 'This board does not work: refusal 21: window not 4, 8 or 16.');
    } finally {
      await page.close();
    }
  }
});

const MILL_BRIDGE = 'now=07:10&station=Mill%20Bridge';
boardTest('the second edition, what does not fit, notices, cancelled trains', { name: 'look', words: MILL_BRIDGE }, async (page) => {
  await feed(page, sample, { atOnce: true });
  const table = tableOf(nativelyShown, 'Mill Bridge');
  const { rows, later, notices, fits } = await shown(page);
  assert.equal(table.edition, 2);
  assert.ok(rows.some((row) => row[4] === '+14 min'));
  assert.ok(fits);
  const rest = departuresFrom(table, '07:10').slice(rows.length);
  assert.ok(rest.length > 0 && later.startsWith(`Later: ${rest[0].time}\u00a0${rest[0].to}`), later);
  const all = [...nativelyShown.notices].reverse();
  assert.ok(notices.length >= 2 && new Set(notices).size === notices.length);
  assert.deepEqual(notices, all.slice(0, notices.length));
  // What stays is not set anew: it would be read out again.
  await page.evaluate(`window.first = document.querySelector('#notices p'); dispatchEvent(new Event('resize'))`);
  assert.ok(await page.evaluate(`window.first.isConnected`));
  assert.equal(await page.evaluate(`getComputedStyle(document.querySelector('tr.cancelled .to')).textDecorationLine`), 'line-through');
  await feed(page, [bundle('Timetable: Mill Bridge\nEdition: 1\n07:11 Line X Platform 9 Nowhere'), bundle(notices[0])]);
  const then = await shown(page);
  assert.deepEqual([then.rows, then.notices], [rows, notices]);
  await feed(page, [bundle('Timetable: Mill Bridge\nEdition: 2\n07:11 Line X Platform 9 Nowhere\nA note')]);
  assert.deepEqual((await shown(page)).rows, [['07:11', 'X', 'Nowhere', '9', '']]);
  await reopen(page, address('look', 'now=23:59&station=Mill%20Bridge'));
  assert.equal((await shown(page)).empty, 'No more departures today.');
});

boardTest('contrast, names and sizes', { name: 'sizes', words: MILL_BRIDGE }, async (page) => {
  await feed(page, sample, { atOnce: true });
  if (process.env.SCREENSHOTS) {
    fs.mkdirSync(process.env.SCREENSHOTS, { recursive: true });
    await page.screenshot(path.join(process.env.SCREENSHOTS, 'board.png'));
  }
  await page.evaluate(`document.getElementById('setup').open = true; document.getElementById('forget').click()`);
  const low = await leastContrast(page);
  assert.ok(low.ratio >= 7, JSON.stringify(low));
  assert.deepEqual(await unnamed(page), []);
  const least = { '1600x900': 6, '1080x1920': 12, '1280x800': 6, '3840x2160': 6, '800x480': 5, '400x780': 5, '360x500': 3 };
  for (const [name, count] of Object.entries(least)) {
    const [width, height] = name.split('x').map(Number);
    await resize(page, width, height);
    const { rows, fits } = await shown(page);
    assert.ok(fits && rows.length >= count, `${name}: ${rows.length} rows`);
  }
  await resize(page, 320, 240);
  assert.ok(await page.evaluate('document.documentElement.scrollWidth <= innerWidth'));
  // The parts of a table stay parts of a table where the rows are laid out in another way.
  const { nodes } = await page.send('Accessibility.getFullAXTree');
  const roles = new Set(nodes.filter((node) => !node.ignored).map((node) => node.role.value));
  assert.deepEqual(['table', 'row', 'rowheader', 'columnheader', 'cell'].filter((role) => !roles.has(role)), []);
});

boardTest('long words do not widen the page', { name: 'long', words: 'now=07:10', size: { width: 400, height: 780 } }, async (page) => {
  const word = 'Llanfairpwllgwyngyllgogerychwyrndrobwllllantysiliogogogoch';
  await feed(page, [bundle(`Timetable: ${word}\n07:12 Line LONGLINE Platform 12 ${word} via ${word}, ${word}`), bundle(word)]);
  const { rows, notices } = await shown(page);
  assert.deepEqual([rows[0][4], notices], [word, [word]]);
  for (const [width, height] of [[400, 780], [320, 480], [800, 480], [1080, 1920], [1600, 900]]) {
    await resize(page, width, height);
    assert.ok(await page.evaluate('document.documentElement.scrollWidth <= innerWidth'), `${width} x ${height}`);
    assert.equal(await page.evaluate(`document.getElementById('clock').getClientRects().length`), 1);
  }
});

boardTest('keys reach the setup, and the focus is seen', { name: 'keys' }, async (page) => {
  const focus = () => page.evaluate(`(() => {
    const at = document.activeElement, seen = at.matches(':focus-visible');
    const outline = seen ? parseFloat(getComputedStyle(at).outlineWidth) : 0;
    return { name: at.id || at.localName, open: document.getElementById('setup').open, outline };
  })()`);
  await page.key('Tab');
  assert.deepEqual(await focus(), { name: 'summary', open: false, outline: 3 });
  await page.key('Enter', 'Enter', '\r');
  for (const name of ['choose', 'file', 'demo', 'forget']) {
    await page.key('Tab');
    assert.deepEqual(await focus(), { name, open: true, outline: 3 });
  }
  await page.key('Escape');
  assert.deepEqual(await focus(), { name: 'summary', open: false, outline: 3 });
});

/** Ways to spoil what is kept; `text` is the item, `{` its first brace. */
const SPOILT = {
  'an octet of the image': `text.replace(/"image":"..../, (found) => found.slice(0, -1) + (found.endsWith('A') ? 'B' : 'A'))`,
  'an octet of the pool': `text.replace(/"pool":".{400}/, (found) => found.slice(0, -1) + (found.endsWith('A') ? 'B' : 'A'))`,
  'a time that is shown': `text.replace('"time":"07:', '"time":"08:')`,
  'not JSON': `'hello'`,
  'no text': `''`,
  'cut short': 'text.slice(0, -5)',
  'another version': `text.replace('btpu-board 1 ', 'btpu-board 2 ')`,
};
for (const [what, spoil] of Object.entries(SPOILT)) {
  boardTest(`spoilt storage is told and the board begins anew: ${what}`, { name: 'spoilt' }, async (page) => {
    await click(page, 'forget');
    await click(page, 'forget');
    await feed(page, sample.slice(0, firstEnd + 3), { atOnce: true });
    assert.ok((await shown(page)).rows.length > 0);
    assert.ok(await page.evaluate(`(() => { const text = localStorage.getItem(${keyOf('spoilt')}), other = ${spoil};
      localStorage.setItem(${keyOf('spoilt')}, other); return other !== text; })()`));
    await reopen(page, address('spoilt', 'now=07:10'));
    const told = 'What was kept could not be read: this board began anew. Nothing received yet.';
    const { status, kind, rows } = await shown(page);
    assert.deepEqual({ status, kind, rows }, { status: told, kind: 'bad', rows: [] });
    await feed(page, [sample[0]]);
    assert.match((await shown(page)).status, /began anew/);
    await feed(page, sample.slice(1, firstEnd + 1), { atOnce: true });
    const then = await shown(page);
    assert.ok(then.rows.length > 0 && !/anew/.test(then.status), then.status);
  });
}

boardTest('an image with a right check sum that is no sound state is told', { name: 'unsound' }, async (page) => {
  await feed(page, sample.slice(0, 3));
  await page.evaluate(`(() => {
    const text = localStorage.getItem(${keyOf('unsound')}).replace(/"image":"..../, '"image":"////'), body = text.slice(text.indexOf('{'));
    let sum = 0x811c9dc5;
    for (const c of body) sum = Math.imul(sum ^ c.charCodeAt(0), 0x01000193);
    localStorage.setItem(${keyOf('unsound')}, 'btpu-board 1 ' + (sum >>> 0).toString(16).padStart(8, '0') + ' ' + body);
  })()`);
  await reopen(page, address('unsound', 'now=07:10'));
  assert.match((await shown(page)).status, /began anew/);
});

boardTest('storage that refuses to write is told until it works again, and no frame is lost', { name: 'full' }, async (page) => {
  const refuse = (error) => page.evaluate(`window.set ??= Storage.prototype.setItem;
    Storage.prototype.setItem = () => { throw ${error}; }; undefined`);
  await feed(page, sample.slice(0, 2));
  await refuse(`new DOMException('full', 'QuotaExceededError')`);
  assert.deepEqual(await feed(page, sample.slice(2, firstEnd + 1)), sample.slice(2, firstEnd + 1).map(() => false));
  const full = await shown(page);
  assert.match(full.status, /^This board cannot keep what it receives: the browser's storage is full\. After .* anew\. Last received/);
  assert.ok(full.kind === 'bad' && full.rows.length > 0);
  await page.evaluate(`dispatchEvent(new Event('resize'))`);
  assert.equal((await shown(page)).status, full.status);
  await refuse(`new Error('no')`);
  await feed(page, [sample[firstEnd + 1]]);
  assert.match((await shown(page)).status, /does not let it store/);
  await page.evaluate('Storage.prototype.setItem = window.set; undefined');
  await page.until(`!/cannot keep/.test(document.getElementById('status').textContent)`, 5000);
  await reopen(page, address('full', 'now=07:10'));
  assert.deepEqual((await shown(page)).rows, full.rows);
});

const NO_STORAGE = `Object.defineProperty(window, 'localStorage', { get() { throw new DOMException('no', 'SecurityError'); } });`;
boardTest('a browser without storage is told, and the board goes on', { name: 'none', prepare: NO_STORAGE }, async (page) => {
  assert.match((await shown(page)).status, /cannot keep what it receives: the browser gives it no storage/);
  await feed(page, sample.slice(0, firstEnd + 1));
  const { rows, status } = await shown(page);
  assert.ok(rows.length > 0 && /cannot keep/.test(status), status);
});

test('a module that traps costs one frame and no more', { timeout: 30000 }, async () => {
  site.made.set('/btpu.wasm', Buffer.from(withStack(fs.readFileSync(path.join(web, 'btpu.wasm')), 8192)));
  const page = await browser.page(address('starved', 'now=07:10'), TALL);
  try {
    await ready(page);
    const table = text('Timetable: Weir\n07:30 Line R4 Platform 1 Quarry');
    await feed(page, [piece(false, 9, 0, table.slice(0, 20)), message(2, 128, chain(1022))].map((octets) => Uint8Array.from(octets)));
    const { counts, status, kind } = await shown(page);
    assert.deepEqual([counts['Frames taken'], counts['Frames lost by a trap'], kind], ['1', '1', 'bad']);
    assert.match(status, /could not be read/);
    await feed(page, [Uint8Array.from(piece(true, 9, 1, table.slice(20)))]);
    const then = await shown(page);
    assert.deepEqual(then.rows, [['07:30', 'R4', 'Quarry', '1', '']]);
    assert.equal(then.status, 'Last received 07:10.');
    assert.deepEqual(page.errors, []);
  } finally {
    site.made.delete('/btpu.wasm');
    await page.close();
  }
});

/** Makes a module trap, when asked to, at the second call for a frame. */
const TRAPPING = `const instantiate = WebAssembly.instantiate;
WebAssembly.instantiate = async (module) => {
  const { exports } = await instantiate(module);
  const btpu_receive = (...words) => {
    if (window.trapping && words[5] > 0n) throw new WebAssembly.RuntimeError('asked for');
    return exports.btpu_receive(...words);
  };
  return { exports: { ...exports, btpu_receive } };
};`;
boardTest('what a frame handed out before a trap is shown, and it can come again', { name: 'mid', prepare: TRAPPING }, async (page) => {
  await feed(page, [Uint8Array.from(piece(false, 3, 0, text('Timetable: Weir\n07:30 ')))]);
  const frame = Uint8Array.from([...message(2, 0, text('A notice')), ...piece(true, 3, 1, text('Line R4 Platform 1 Quarry'))]);
  await page.evaluate('window.trapping = true');
  await feed(page, [frame]);
  const { notices, rows, counts } = await shown(page);
  assert.deepEqual([notices, rows, counts['Frames lost by a trap']], [['A notice'], [], '1']);
  await page.evaluate('window.trapping = false');
  await feed(page, [frame]);
  const then = await shown(page);
  assert.deepEqual([then.notices, then.rows], [['A notice'], [['07:30', 'R4', 'Quarry', '1', '']]]);
});

/** Gives the board a file and waits until it is taken. */
async function give(page, name, content) {
  const file = path.join(temporary, name);
  fs.writeFileSync(file, content);
  await page.files('#file', [file]);
  await page.until(`document.getElementById('file').value === ''`);
}

boardTest('a file of hex lines, bad lines, a recording, a bad recording, an empty file', { name: 'files' }, async (page) => {
  const taken = async () => (await shown(page)).counts['Frames taken'];
  await give(page, 'bad.hex', `# a comment\n${writeHex(sample.slice(0, 2))}zz\n${writeHex(sample.slice(2, firstEnd + 1))}123\n`);
  const bad = await shown(page);
  assert.match(bad.status, new RegExp(`^2 lines of the file left out: line 4 \\(not hex\\), line ${firstEnd + 4} \\(.*\\)\\. Last`));
  assert.equal(bad.kind, 'bad');
  assert.ok(bad.rows.length > 0);
  await feed(page, [sample[0]]);
  assert.match((await shown(page)).status, /left out/);
  await give(page, 'good.hex', writeHex(sample.slice(firstEnd + 1, firstEnd + 3)));
  assert.equal((await shown(page)).status.includes('left out'), false);
  assert.equal(await taken(), `${firstEnd + 4}`);
  const recording = (await Recorder.create()).record(sample);
  await give(page, 'frames.rec', recording);
  assert.equal(await taken(), `${firstEnd + 4 + sample.length - expected.refused.length}`);
  await give(page, 'cut.rec', recording.slice(0, -1));
  assert.match((await shown(page)).status, /^The file was not taken: .* no good recording \(refusal 16: octets of .* missing\)\./);
  await give(page, 'empty.hex', '# nothing\n');
  assert.match((await shown(page)).status, /^There is no frame in this file\./);
});

boardTest('500 frames by a file in less than 10 s', { name: 'speed' }, async (page) => {
  const frames = Array.from({ length: 500 }, (_, k) => sample[k % sample.length]);
  const from = Date.now();
  await give(page, 'many.hex', writeHex(frames));
  assert.ok(Date.now() - from < 10000);
  const { counts } = await shown(page);
  assert.equal(Number(counts['Frames taken']) + Number(counts['Frames refused']), 500);
});

boardTest('frames from another tab, where anything else is passed over', { name: 'channel' }, async (page) => {
  const other = await browser.page(`${site.address}/sample.hex`);
  try {
    await other.evaluate(`(async () => {
      const channel = new BroadcastChannel('btpu-frames');
      for (const other of [null, 'hello', { length: 1 }, [0], new ArrayBuffer(1), Uint16Array.of(0)]) channel.postMessage(other);
      const { readHex } = await import('./frames.mjs');
      for (const frame of readHex(document.body.textContent).frames) channel.postMessage(frame);
    })()`);
    await page.until(`document.querySelector('#counts dd').textContent === '${sample.length - expected.refused.length}'`);
    assert.ok((await shown(page)).rows.length > 0);
  } finally {
    await other.close();
  }
});

boardTest('what is no frame is an error; octets may be used again at once', { name: 'octets' }, async (page) => {
  const answers = await page.evaluate(`Promise.all(['00', null, Uint8Array.of(0), new ArrayBuffer(1), new DataView(new ArrayBuffer(2))]
    .map((frame) => board.receive(frame).catch((e) => e.name)))`);
  assert.deepEqual(answers, ['TypeError', 'TypeError', true, true, true]);
  await page.evaluate(`(() => {
    const frame = Uint8Array.from(${JSON.stringify([...bundle('Timetable: Weir\n07:30 Quarry')])}), taken = board.receive(frame);
    frame.fill(0);
    return taken;
  })()`);
  assert.equal((await shown(page)).station, 'Weir');
});

boardTest('the sample, the choice of a station, and forgetting all at the second press', { name: 'setup' }, async (page) => {
  await page.evaluate(`document.getElementById('setup').open = true`);
  await click(page, 'demo');
  await page.until(`document.querySelectorAll('#departures tbody tr').length > 3`);
  await reopen(page, address('setup', 'now=07:10'));
  await feed(page, sample, { atOnce: true });
  await page.evaluate(`document.getElementById('choose').value = 'Harbour';
    document.getElementById('choose').dispatchEvent(new Event('change'))`);
  assert.equal((await shown(page)).station, 'Harbour');
  await reopen(page, await page.evaluate('location.href'));
  assert.equal((await shown(page)).station, 'Harbour');
  await page.evaluate(`document.getElementById('setup').open = true; document.getElementById('forget').focus()`);
  await click(page, 'forget');
  assert.match(await page.evaluate(`document.getElementById('asked').textContent`), /Press .* again/);
  await page.evaluate(`document.getElementById('choose').focus()`);
  assert.equal(await page.evaluate(`document.getElementById('asked').textContent`), '');
  assert.ok((await shown(page)).rows.length > 0);
  await click(page, 'forget');
  await click(page, 'forget');
  await page.until(`document.querySelectorAll('#departures tbody tr').length === 0`);
  await reopen(page, address('setup', 'now=07:10'));
  const { rows, notices, status, counts } = await shown(page);
  assert.deepEqual({ rows, notices, status }, { rows: [], notices: [], status: 'Nothing received yet.' });
  assert.equal(counts['Frames taken'], '0');
});

boardTest('two boards do not disturb each other; of two with one name it is told', { name: 'one' }, async (page) => {
  const other = await browser.page(address('two', 'now=07:10'), TALL);
  const third = await browser.page(address('two', 'now=07:10'), TALL);
  try {
    await ready(other);
    await ready(third);
    await feed(page, [bundle('Timetable: Weir\n07:30 Quarry')]);
    await feed(other, [bundle('Timetable: Quarry\n07:31 Weir')]);
    await third.until(`/same name/.test(document.getElementById('status').textContent)`);
    await reopen(page, address('one', 'now=07:10'));
    await reopen(other, address('two', 'now=07:10'));
    assert.deepEqual([(await shown(page)).station, (await shown(other)).station], ['Weir', 'Quarry']);
    assert.doesNotMatch((await shown(page)).status, /same name/);
  } finally {
    await other.close();
    await third.close();
  }
});

boardTest('an old reception is told, with the day', { name: 'old', words: 'today=2026-03-02&now=22:10' }, async (page) => {
  await feed(page, sample, { atOnce: true });
  assert.equal((await shown(page)).status, 'Last received 22:10.');
  await reopen(page, address('old', 'today=2026-03-03&now=01:00'));
  assert.equal((await shown(page)).status, 'Last received 22:10 on Monday 2 March 2026.');
  await reopen(page, address('old', 'today=2026-03-03&now=07:10'));
  const { status, kind } = await shown(page);
  assert.deepEqual([status, kind], ['Last received 22:10 on Monday 2 March 2026: this timetable may be out of date.', 'old']);
  assert.ok((await leastContrast(page)).ratio >= 7);
  // A refused frame is no reception.
  await feed(page, [sample[expected.refused[0].frame]]);
  assert.equal((await shown(page)).status, status);
  await feed(page, [sample[0]]);
  assert.equal((await shown(page)).status, 'Last received 07:10.');
});

boardTest('nothing is loaded from elsewhere, and a board without its module says so', { name: 'alone', words: 'demo' }, async (page) => {
  await page.until(`document.querySelectorAll('#counts dd')[0].textContent !== '0'`);
  const names = await page.evaluate(`performance.getEntriesByType('resource').map((entry) => entry.name)`);
  assert.ok(names.length > 5 && names.every((name) => name.startsWith(site.address)), names.join());
  site.made.set('/btpu.wasm', Buffer.from('not a module'));
  try {
    await reopen(page, address('alone'));
    assert.equal(await page.evaluate('document.body.dataset.ready'), 'failed');
    assert.match((await shown(page)).status, /^This board does not work: /);
  } finally {
    site.made.delete('/btpu.wasm');
  }
});
