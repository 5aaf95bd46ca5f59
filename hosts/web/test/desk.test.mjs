// The desk page in headless Chromium, held to the native library. SCREENSHOTS=FOLDER writes FOLDER/desk.png, desk-night.png and
// desk-windows.png.
import assert from 'node:assert/strict';
import fs from 'node:fs';
import path from 'node:path';
import test, { after, before, beforeEach } from 'node:test';
import { Recorder, Sender } from '../btpu.mjs';
import { hexOf, overLink, readHex, writeHex } from '../frames.mjs';
import { windowSample } from '../samples.mjs';
import { NOTHING, departuresFrom, showing, tableOf } from '../timetable.mjs';
import { chromium, serve } from './chromium.mjs';
import { chain, leastContrast, message, natively, octets, sample, sample00, temporary, unnamed, web } from './common.mjs';
import { lackingOf, nativelyCame, reckoned } from './reckoning.mjs';
import { withStack } from './starve.mjs';

const GOOD = { seed: 1, lose: 0, double: 0, shuffle: 0, damage: 0 };
const BAD = { seed: 133, lose: 30, double: 12, shuffle: 12, damage: 14 };
const LARGE = { width: 1500, height: 1320 };
const pictures = process.env.SCREENSHOTS;

let site, browser, page, recorder;
before(async () => {
  recorder = await Recorder.create();
  site = await serve({ '/': web });
  browser = await chromium();
  page = await browser.page(`${site.address}/desk.html`, LARGE);
  await page.until('document.body.dataset.ready');
});
// No limit, a good link, draft 02 and one board with the plain window, from the next frames on that are loaded.
beforeEach(() => set({ ...GOOD, limit: '', draft: '02', 'first-window': 8, 'second-window': '' }));
after(async () => {
  await browser?.close();
  site?.close();
});

// ---- what is done to the page

/** Gives values to controls, without telling the page. */
const set = (values) => page.evaluate(`for (const [id, value] of Object.entries(${JSON.stringify(values)})) {
  document.getElementById(id).value = value;
}`);
const click = (id) => page.evaluate(`document.getElementById('${id}').click()`);
const idle = () => page.until(`document.body.dataset.busy === 'no'`);
const wait = (ms) => page.evaluate(`new Promise((done) => setTimeout(done, ${ms}))`);
const textOf = (id) => page.evaluate(`document.getElementById('${id}').textContent`);
const status = () => textOf('status');
const says = (words) => page.until(`${words}.test(document.getElementById('status').textContent)`);
const blur = () => page.evaluate('document.activeElement.blur()');

/** Gives a value to a control and tells the page so. */
const put = async (id, value, event) => {
  await set({ [id]: value });
  await page.evaluate(`document.getElementById('${id}').dispatchEvent(new Event('${event}'))`);
  await idle();
};
const toTheEnd = async () => {
  await click('end');
  await idle();
};
const seek = (place) => put('seek', place, 'input');
const savesAs = (words) => page.until(`document.getElementById('save').textContent === 'Save as ${words}'`);
const useDraft00 = async () => {
  await put('draft', '00', 'change');
  await savesAs('hex lines');
};
/** The files that the page offers for download, from now on. */
const catchSaved = () => page.evaluate(`{
  window.createURL ??= URL.createObjectURL.bind(URL);
  URL.createObjectURL = (blob) => window.createURL(window.saved = blob);
}`);
const saved = async () => Uint8Array.from(await page.evaluate(`window.saved.arrayBuffer().then((buffer) => [...new Uint8Array(buffer)])`));
const useLink = async (link) => {
  await set(link);
  await put('seed', link.seed, 'input');
};
/** Takes lines by the field for pasting. */
const paste = async (lines) => {
  await set({ lines: lines.join('\n') });
  await click('paste');
  await page.until(`document.querySelectorAll('#strip .f').length === ${lines.length}`);
};

/** Gives the page a file, and waits until it was read. */
async function open(name, content) {
  const file = path.join(temporary, name);
  fs.writeFileSync(file, content);
  // Not asked to load the same file twice: the page would not hear of it.
  await page.evaluate(`document.getElementById('file').value = ''; document.body.dataset.busy = 'asked'`);
  await page.files('#file', [file]);
  await idle();
}

/** The sample over a link, at its start. */
async function begin(link, frames = sample) {
  await open('sample.hex', writeHex(frames));
  await useLink(link);
  return overLink(frames, link);
}

// ---- what the page shows

const SHOWN = `(() => {
  const all = (selector) => [...document.querySelectorAll(selector)];
  const text = (id) => document.getElementById(id).textContent;
  const list = (id) => all('#' + id + ' > li').reverse().map((li) => ({ ...li.dataset }));
  const number = (text) => +text.replaceAll(',', '');
  const counts = all('#counts dt').map((dt) => [dt.textContent, number(dt.nextElementSibling.textContent)]);
  const indexes = (row, kind) => [...row.querySelectorAll('.p' + kind)].map((cell) => +/^piece (\\d+)/.exec(cell.title)[1]);
  const row = (tr) => ({ row: +tr.cells[0].textContent, number: tr.cells[1].textContent, phase: tr.cells[2].textContent,
    octets: tr.cells[4].textContent.replaceAll(',', ''), all: indexes(tr, ''), here: indexes(tr, '.have'), missing: indexes(tr, '.miss'),
    last: indexes(tr, '.last'), more: [...tr.querySelectorAll('.cells > *')].findIndex((cell) => cell.className === 'more') });
  return {
    bundles: list('bundles'), refused: list('refused'), rows: all('#window tbody tr').map(row),
    bundles2: list('bundles-2'), lacking: list('lacking'), rows2: all('#window-2 tbody tr').map(row), verdict: text('verdict'),
    table: Object.fromEntries(all('#costs tbody tr').map((tr) => [tr.cells[0].textContent, [1, 2].map((k) => number(tr.cells[k].textContent))])),
    only: all('#bundles .only, #bundles-2 .only').filter((e) => e.checkVisibility()).length,
    costs: ['Messages too far behind', 'Dropped half-received'].map((name) => Object.fromEntries(counts)[name]),
    labels: all('#window tbody [role=img]').map((cells) => cells.getAttribute('aria-label')),
    fresh: all('#window .p.new').length, heads: [text('n-bundles'), text('n-refused')],
    fates: all('#strip .f').map((cell) => ['taken', 'refused', 'lost'].find((fate) => cell.classList.contains(fate)) ?? ''),
    now: all('#strip .f').findIndex((cell) => cell.classList.contains('now')),
    departures: all('#departures tbody tr').map((tr) => [...tr.cells].map((td) => td.firstChild?.textContent ?? '')),
    notices: all('#notices li').map((li) => li.textContent), later: text('later'), place: text('place'), status: text('status'),
    seek: +document.getElementById('seek').value, counts: counts.map(([, count]) => count),
  };
})()`;
const shown = () => page.evaluate(SHOWN);

/** The rows of the window as the page shows them, from the native state: indexes rise; in draft 00 they fall. */
const rowsOf = (rows, draft) => rows.map(({ row, number, phase, last, pieces }) => {
  const open = phase === 'open', held = open ? pieces.map((p) => p.index) : [], length = open ? (last ?? Math.max(-1, ...held)) + 1 : 0;
  const all = Array.from({ length }, (_, k) => (draft === '00' ? length - 1 - k : k));
  return {
    row, number: number === null ? '–' : `${number}`, phase,
    octets: open ? `${pieces.reduce((sum, p) => sum + p.length, 0)}` : '',
    all, here: all.filter((k) => held.includes(k)), missing: all.filter((k) => !held.includes(k)), last: open && last !== null ? [last] : [],
    more: !open || last !== null ? -1 : draft === '00' ? 0 : length,
  };
});

/** What a board shows of bundles, for a station from a time on. */
function boardOf(bundles, station, time) {
  const all = bundles.reduce((before, bundle) => showing(before, octets(bundle.octets)), NOTHING);
  const departures = departuresFrom(tableOf(all, station), time).slice(0, 6);
  return {
    departures: departures.map((d) => [d.time, d.line, d.to, d.platform, d.remark]),
    notices: all.notices.slice(-3).reverse(),
  };
}

/** Holds what the page shows to what the native library makes of the arrivals up to a place. */
async function hold(arrivals, place = arrivals.length, { station = '', time = '06:00', draft = '02', window = 8 } = {}) {
  const is = await shown(), came = [...arrivals.keys()].filter((k) => k < place && !arrivals[k].lost);
  const { bundles, refused, rows } = natively(came.map((k) => arrivals[k].frame), { draft, window }), bad = refused.map((r) => came[r.frame]);
  assert.deepEqual(is.bundles, bundles.map((b) => ({ number: b.number, octets: b.octets, frame: `${came[b.frame]}` })));
  assert.deepEqual(is.refused, refused.map((r) => ({ number: r.number, place: r.place, frame: `${came[r.frame]}` })));
  assert.deepEqual(is.rows, rowsOf(rows, draft));
  assert.deepEqual(is.fates, arrivals.map((a, k) => (k >= place ? '' : a.lost ? 'lost' : bad.includes(k) ? 'refused' : 'taken')));
  assert.deepEqual({ departures: is.departures, notices: is.notices }, boardOf(bundles, station, time));
  const lost = arrivals.slice(0, place).filter((a) => a.lost).length;
  assert.deepEqual(is.heads, [`${bundles.length}`, `${refused.length}${lost > 0 ? `, and ${lost} lost on the link` : ''}`]);
  assert.deepEqual([is.seek, is.now], [place, place - 1]);
  assert.ok(is.place.startsWith(`Frame ${place} of ${arrivals.length}, `), is.place);
  return is;
}

/** The frames of a night: the sample's bundles sent again and again over a bad link, as many as a recording holds; some are cut short. */
async function night() {
  const sender = await Sender.create({ frameSize: 128, firstNumber: 700 }), { bundles } = natively(sample), came = [];
  const sent = Array.from({ length: 8 }, () => bundles.flatMap((bundle) => sender.send(octets(bundle.octets)))).flat();
  let total = 0;
  for (const { frame, lost } of overLink(sent, { seed: 21, lose: 9, double: 4, shuffle: 14, damage: 0 })) {
    if (lost || total + frame.length > 61440) continue;
    came.push(came.length % 53 === 40 ? frame.slice(0, 90) : frame);
    total += frame.length;
  }
  return came;
}

// ---- tests

test('loads', async () => {
  assert.equal(await page.evaluate('document.body.dataset.ready'), 'yes', await status());
  assert.match(await status(), /Choose a file/);
});

test('a file of hex lines, with the lines named that are left out', async () => {
  await open('faults.hex', `# sample\n${writeHex(sample)}zz\n123\n`);
  const faults = await page.evaluate(`[...document.querySelectorAll('#faults li')].map((li) => li.textContent)`);
  assert.deepEqual(faults, [`Line ${sample.length + 2} left out: not hex`, `Line ${sample.length + 3} left out: half an octet is missing`]);
  assert.match(await status(), new RegExp(`^${sample.length} frames ready`));
  await toTheEnd();
  await hold(overLink(sample, GOOD));
});

test('a good link and bad links show what the native library makes of the frames', async () => {
  const worse = { seed: 5, lose: 22, double: 12, shuffle: 9, damage: 12 }, worst = { seed: 7, lose: 5, double: 60, shuffle: 40, damage: 40 };
  for (const link of [GOOD, { ...GOOD, seed: 6, lose: 40 }, worse, worst]) {
    const arrivals = await begin(link);
    await toTheEnd();
    const { counts } = await hold(arrivals);
    assert.deepEqual(counts.slice(0, 3), [sample.length, arrivals.filter((a) => a.lost).length, arrivals.filter((a) => a.copy).length]);
  }
});

test('stepping by the arrow keys; what came with a frame; going back by key, strip and seek bar', async () => {
  const arrivals = await begin(BAD), stops = [0];
  arrivals.forEach((a, k) => a.lost || stops.push(k + 1));
  await blur();
  for (let n = 0; n < 70; n++) await page.key('ArrowRight');
  const is = await hold(arrivals, stops[70]);
  assert.ok(is.labels.some((label) => /^\d+ pieces? here.*; missing \d/.test(label)), is.labels.join('\n'));
  for (let n = 69; n > 60; n--) await page.key('ArrowLeft');
  await hold(arrivals, stops[61]);
  for (const place of [33, 34, 120, 2, 90]) {
    await page.evaluate(`document.querySelectorAll('#strip .f')[${place - 1}].click()`);
    await idle();
    await hold(arrivals, place);
  }
  for (const place of [100, 12, arrivals.length, 0, 1, 57]) {
    await seek(place);
    await hold(arrivals, place);
  }
  await page.evaluate(`document.getElementById('seek').focus()`);
  await page.key('ArrowLeft');
  await hold(arrivals, 56);
});

test('the pieces that came with the frame are marked', async () => {
  const arrivals = await begin(GOOD);
  const held = (frames) => natively(frames).rows.flatMap((r) => (r.phase === 'open' ? r.pieces.map((p) => `${r.number} ${p.index}`) : []));
  for (const place of [1, 2, 9, 30]) {
    await seek(place);
    const frames = arrivals.slice(0, place).map((a) => a.frame), before = held(frames.slice(0, -1));
    assert.equal((await shown()).fresh, held(frames).filter((piece) => !before.includes(piece)).length);
  }
});

test('the board panel: what it showed then, for a station, from a time on', async () => {
  const arrivals = await begin(GOOD), { bundles } = natively(sample);
  await toTheEnd();
  const mill = bundles.filter((b) => /^Timetable: Mill Bridge/.test(Buffer.from(b.octets, 'hex').toString()));
  assert.notEqual(mill[0].octets, mill.at(-1).octets);
  await put('station', 'Mill Bridge', 'change');
  await put('time', '07:30', 'input');
  for (const place of [arrivals.length, mill[0].frame, mill[0].frame + 1, mill.at(-1).frame, arrivals.length]) {
    await seek(place);
    const is = await hold(arrivals, place, { station: 'Mill Bridge', time: '07:30' });
    assert.equal(is.departures.length === 0, place === mill[0].frame);
    assert.match(is.later, place === mill[0].frame ? /No timetable/ : /Mill Bridge, edition \d/);
  }
  await put('time', '7 o', 'input');
  assert.equal((await shown()).departures[0][0] >= '07:30', true);
  assert.equal(await page.evaluate(`document.getElementById('time').getAttribute('aria-invalid')`), 'true');
  await put('time', '06:00', 'input');
  await put('station', '', 'change');
});

test('play by the space bar at a pace, pause, and on to the end', async () => {
  const arrivals = await begin(BAD);
  await put('pace', '25', 'change');
  await blur();
  const from = performance.now();
  await page.key(' ', 'Space', ' ');
  await wait(800);
  assert.equal(await textOf('play'), 'Pause');
  await page.key(' ', 'Space', ' ');
  const most = 2 + (25 * (performance.now() - from)) / 1000, { seek: place } = await shown();
  const taken = arrivals.slice(0, place).filter((a) => !a.lost).length;
  assert.ok(taken >= 3 && taken <= most, `${taken} frames taken`);
  await wait(200);
  await hold(arrivals, place);
  await put('pace', 'Infinity', 'change');
  await click('play');
  await idle();
  await hold(arrivals);
  await page.key('Home');
  await idle();
  assert.equal((await shown()).seek, 0);
  await page.key('End');
  await idle();
  await hold(arrivals);
  assert.match(await status(), /That was the last frame/);
});

test('a recording loads and plays', async () => {
  await useLink(GOOD);
  const frames = await night();
  await set({ 'first-window': 16 }); // that of the library's playback
  await open('night.recording', recorder.record(frames));
  assert.equal(await textOf('source'), `Recording night.recording: ${frames.length} frames`);
  await put('pace', 'Infinity', 'change');
  await click('play');
  await idle();
  const played = recorder.play(recorder.record(frames)), is = await shown();
  assert.equal(is.place, `Frame ${frames.length} of ${frames.length}, ${played.messages} messages`);
  assert.deepEqual(is.bundles.map((b) => b.octets), played.bundles.map((b) => hexOf(b)).slice(-100));
  assert.deepEqual(is.refused.map((r) => [+r.frame, +r.number]), played.refused.map((r) => [r.frame, r.number]));
});

test('stop after a number of messages, as the library plays a recording', async () => {
  const several = Uint8Array.from([...message(2, 0, [65]), 0, 0, 0, ...message(2, 0, [66]), ...message(2, 0, [67])]);
  const frames = [octets('0200000140'), octets('030000'), several, ...sample.slice(0, 40)], recording = recorder.record(frames);
  await set({ 'first-window': 16 });
  await open('limits.recording', recording);
  for (const messages of [0, 1, 2, 3, 4, 5, 20]) {
    await put('limit', messages, 'change');
    await toTheEnd();
    const played = recorder.play(recording, { messages }), is = await shown();
    assert.deepEqual(is.bundles.map((b) => b.octets), played.bundles.map((b) => hexOf(b)));
    assert.deepEqual(is.refused.map((r) => [+r.frame, +r.number]), played.refused.map((r) => [r.frame, r.number]));
    assert.match(is.status, new RegExp(`^Stopped after ${played.messages} messages?[,.]`));
    if (messages === 3) assert.match(is.status, /inside frame 3: 2 of its 4 messages were treated/);
    await page.evaluate(`document.getElementById('restart').click()`);
    await idle();
  }
  await seek(30);
  await put('limit', '', 'change');
  assert.equal((await shown()).seek <= 30, true);
  await toTheEnd();
  assert.equal((await shown()).seek, frames.length);
});

test('files that are neither hex nor a recording are refused in words, and change nothing', async () => {
  await open('before.hex', writeHex(sample.slice(0, 5)));
  await open('letter.txt', 'Dear passengers,\nnothing runs.\n');
  assert.match(await status(), /^letter.txt was not loaded. It is no recording \(refusal \d+: .+\), and no lines of hex \(line 1: not hex\)/);
  const recording = recorder.record(sample);
  await open('short.recording', recording.subarray(0, recording.length - 7));
  assert.match(await status(), /no recording \(refusal 16: octets of the recording are missing\)/);
  await open('long.recording', Buffer.concat([recording, Buffer.from([0])]));
  assert.match(await status(), /no recording \(refusal 20: octets behind the recording\)/);
  assert.match(await textOf('faults'), /long.recording was not loaded/);
  await page.evaluate(`window.kept = File.prototype.arrayBuffer; File.prototype.arrayBuffer = () => Promise.reject(new Error('it is gone'))`);
  await open('gone.hex', '00\n');
  await page.evaluate('File.prototype.arrayBuffer = window.kept');
  assert.equal(await status(), 'gone.hex could not be read: it is gone');
  assert.equal((await shown()).fates.length, 5);
});

test('saved as a recording: the frames that came over the link', async () => {
  const arrivals = await begin(BAD);
  await catchSaved();
  await click('save');
  await says('/saved as a recording/');
  assert.deepEqual(recorder.open(await saved()), arrivals.filter((a) => !a.lost).map((a) => a.frame));
  await useLink(GOOD);
  await open('many.hex', writeHex(Array(1025).fill(octets('0200000141'))));
  await click('save');
  await says('/Not saved/');
  assert.match(await status(), /1,025 frames.*refusal 17: more than 1,024 frames or 61,440 octets/);
});

const wordsOfTheKey = () => page.evaluate(`[...document.querySelectorAll('.key .final')].map((word) => word.textContent)`);

test('in draft 00 the desk shows what the native library makes of the frames, with the start in place of the last piece', async () => {
  await useDraft00();
  await click('sample');
  await says(`/^${sample00.length} frames ready/`);
  await toTheEnd();
  await hold(overLink(sample00, GOOD), undefined, { draft: '00' });
  for (const link of [BAD, { ...GOOD, seed: 5, lose: 22, shuffle: 9 }]) {
    const arrivals = await begin(link, sample00), labels = [];
    for (const place of [9, 33, 57, 100, 12, arrivals.length]) {
      await seek(place);
      labels.push(...(await hold(arrivals, place, { draft: '00' })).labels);
    }
    assert.ok(labels.some((label) => /^\d+ pieces? here, the start is not known/.test(label)), labels.join('\n'));
    assert.ok(labels.some((label) => /^\d+ pieces? here of \d+; missing \d/.test(label)), labels.join('\n'));
  }
  assert.deepEqual(await wordsOfTheKey(), ['start', 'start']);
  await put('draft', '02', 'change');
  await savesAs('recording');
  assert.deepEqual(await wordsOfTheKey(), ['last piece', 'last piece']);
  await useLink(GOOD);
  await toTheEnd();
  await hold(overLink(sample00, GOOD)); // the same lines, read as draft 02
});

test('a recording is draft 02: a desk set to draft 00 is set to draft 02 for it, and says so', async () => {
  const draft = () => page.evaluate(`document.getElementById('draft').value`), frames = sample.slice(0, 40);
  await useDraft00();
  await open('forty.recording', recorder.record(frames));
  assert.equal(await status(), 'A recording is draft 02: the desk was set to draft 00, and is set to draft 02 now. 40 frames ready.');
  assert.equal(await draft(), '02');
  await toTheEnd();
  await put('draft', '00', 'change');
  assert.equal(await status(), 'A recording is draft 02: the desk stays set to draft 02 until other frames are loaded.');
  assert.equal(await draft(), '02');
  await hold(overLink(frames, GOOD));
  await open('forty.recording', recorder.record(frames));
  assert.equal(await status(), '40 frames ready.');
  await paste(['0200000141']);
  await useDraft00();
});

test('frames of draft 00 are saved as hex lines, and it is said why; bundles are cut in the draft of the desk', async () => {
  const notice = 'A long notice. '.repeat(40).trim(), texts = [notice, 'Short'];
  await useDraft00();
  await set({ texts: texts.join('\n---\n'), first: 7, size: 128 });
  await click('cut');
  await says('/^2 bundles cut into \\d+ frames/');
  await toTheEnd();
  assert.deepEqual((await shown()).bundles.map((b) => [b.number, Buffer.from(b.octets, 'hex').toString()]), [['7', notice], ['-', 'Short']]);
  await catchSaved();
  await click('save');
  await says('/saved as hex lines/');
  const { frames, faults } = readHex(Buffer.from(await saved()).toString());
  assert.equal(await status(), `${frames.length} frames of draft 00 saved as hex lines, since a recording is draft 02.`);
  assert.deepEqual(faults, []);
  assert.deepEqual(frames.slice(0, 2).map((frame) => hexOf(frame.subarray(0, 12))), ['0300007c0000000700000005', '0400007c0000000700000004']);
  await hold(overLink(frames, GOOD), undefined, { draft: '00' });
});

/** Loads a long file, goes to its end and to and fro; answers how long the page did not answer at most. */
async function longWork(frames) {
  await page.evaluate(`{
    let last = performance.now();
    window.gap = 0;
    window.watch = setInterval(() => {
      const now = performance.now();
      window.gap = Math.max(window.gap, now - last);
      last = now;
    }, 5);
  }`);
  await open('long.hex', writeHex(frames));
  await toTheEnd();
  assert.match((await shown()).place, /^Frame 20,000 of 20,000, /);
  for (const place of [12345, 300, 19999]) await seek(place);
  await blur();
  await page.key('ArrowLeft');
  await idle();
  assert.equal((await shown()).seek, 19998);
  await seek(9000);
  return page.evaluate('clearInterval(window.watch), window.gap');
}

test('20,000 frames on two boards: the page answers all the time, and shows a part of the strip', async (t) => {
  const frames = Array.from({ length: 20000 }, (_, k) => sample[k % sample.length]), gaps = [];
  await set({ 'second-window': 4 });
  // A busy machine makes the page wait; so the best of three counts.
  do gaps.push(await longWork(frames)); while (gaps.at(-1) >= 1000 && gaps.length < 3);
  t.diagnostic(`longest time without an answer ${gaps.at(-1).toFixed(0)} ms`);
  assert.ok(gaps.at(-1) < 1000, `${gaps.join(', ')} ms without an answer`);
  const is = await shown();
  assert.equal(is.fates.length, 512);
  assert.ok(is.now > 100 && is.now < 412, `${is.now}`);
  assert.match(await textOf('page'), /of 20,000$/);
  assert.equal(is.bundles.length, 100);
  assert.match(await textOf('more-bundles'), /^and [\d,]+ more before these$/);
  assert.deepEqual([is.rows, is.rows2], [8, 4].map((window) => rowsOf(natively(frames.slice(0, 9000), { window }).rows, '02')));
});

test('steps in quick succession each count, while the seek before still goes on', async () => {
  await seek(15000);
  const during = await page.evaluate(`(() => {
    // A clock on which every step takes longer than a slice.
    const clock = performance.now.bind(performance);
    let more = 0;
    performance.now = () => clock() + (more += 30);
    for (const id of ['back', 'back', 'back', 'step', 'back', 'back']) document.getElementById(id).click();
    return { busy: document.body.dataset.busy, place: document.getElementById('place').textContent };
  })()`);
  await idle();
  await page.evaluate('delete performance.now');
  assert.equal(during.busy, 'yes');
  assert.doesNotMatch(during.place, /^Frame 14,99/);
  assert.match((await shown()).place, /^Frame 14,996 of 20,000/);
});

test('long work ends at Pause', async () => {
  await put('pace', 'Infinity', 'change');
  await click('restart');
  await idle();
  const places = await page.evaluate(`(async () => {
    const place = () => +document.getElementById('seek').value, play = document.getElementById('play');
    document.getElementById('end').click();
    await new Promise((done) => setTimeout(done, 60));
    const during = play.textContent;
    play.click();
    const paused = place();
    await new Promise((done) => setTimeout(done, 150));
    return { during, paused, later: place() };
  })()`);
  assert.equal(places.during, 'Pause');
  assert.ok(places.paused > 0 && places.paused < 20000 && places.later === places.paused, JSON.stringify(places));
});

// ---- windows

test('as many rows as the window has, in both drafts; the place stays where another window is chosen', async () => {
  for (const [draft, frames] of [['02', sample], ['00', sample00]]) {
    await set({ draft });
    const arrivals = await begin(BAD, frames);
    for (const place of [60, 105]) {
      await seek(place);
      for (const window of [4, 8, 16]) {
        await put('first-window', window, 'change');
        const is = await hold(arrivals, place, { draft, window });
        assert.equal(is.rows.length, window);
        assert.match(await textOf('h-window'), new RegExp(`^Window of ${window} transfers`));
        const costs = reckoned(arrivals.slice(0, place), { draft, window });
        assert.deepEqual(is.costs, [costs.flatMap((cost) => cost.passed).length, dropped(costs)]);
      }
    }
  }
});

/** How many open transfers a window left behind. */
const dropped = (costs) => costs.flatMap((cost) => cost.freed).filter(({ phase }) => phase === 'open').length;

/** The bundles of a list, as the page has them. */
const listed = (bundles) => bundles.map((b) => ({ number: b.number, octets: b.octets, frame: `${b.arrival}` })).slice(-100);

const SAID = (board, count, other) => `The ${board} board lacks ${count} bundle${count === 1 ? '' : 's'} that the ${other} one has.`;

/** What the comparison must say of the bundles that the first and the second board lack. */
function verdictOf([first, second], bundles) {
  if (first === 0 && second === 0) return bundles === 0 ? 'No board has handed out a bundle yet.' : 'Both boards have handed out the same bundles.';
  return [second > 0 ? SAID('second', second, 'first') : '', first > 0 ? SAID('first', first, 'second') : ''].filter(Boolean).join(' ');
}

/** Holds what the page shows of two boards to what the native library makes of the arrivals with each window, and to the reckoning. */
async function holdTwo(all, place, windows, draft = '02') {
  const is = await shown(), arrivals = all.slice(0, place), boards = windows.map((window) => nativelyCame(arrivals, { draft, window }));
  const lacked = [lackingOf(boards[0].bundles, boards[1].bundles), lackingOf(boards[1].bundles, boards[0].bundles)];
  const costs = windows.map((window) => reckoned(arrivals, { draft, window }));
  assert.deepEqual(is.table, {
    'Window, transfers': windows,
    'Pool, octets': windows.map((window) => 4096 * window),
    'Bundles handed out': boards.map((board) => board.bundles.length),
    'Bundles lacking': lacked.map((list) => list.length),
    'Dropped half-received': costs.map(dropped),
    'Messages too far behind': costs.map((list) => list.flatMap((cost) => cost.passed).length),
  });
  assert.equal(is.verdict, verdictOf(lacked.map((list) => list.length), boards[0].bundles.length));
  assert.deepEqual([is.rows, is.rows2], boards.map((board) => rowsOf(board.window.rows, draft)));
  assert.deepEqual([is.bundles, is.bundles2], boards.map((board) => listed(board.bundles)));
  const items = ['first', 'second'].flatMap((board, k) => lacked[k].map((b) => ({ board, number: b.number, frame: `${b.arrival}` })));
  const order = (a, b) => a.frame - b.frame || (a.board < b.board ? -1 : 1);
  assert.deepEqual(is.lacking.map(({ board, number, frame }) => ({ board, number, frame })).sort(order), items.sort(order).slice(-100));
  assert.equal(is.only, lacked[1].length + lacked[0].length);
  return is;
}

const PAIRS = [[8, 4], [16, 8], [4, 16], [8, 8]];
for (const draft of ['02', '00']) {
  test(`two boards on the samples for them, by one click, in draft ${draft}`, async () => {
    for (const kind of ['mixed', 'late', 'sequence']) {
      const arrivals = overLink(await windowSample(kind, draft), GOOD);
      await useLink(GOOD);
      for (const [first, second] of PAIRS) {
        await set({ draft, 'first-window': first, 'second-window': second });
        await click(kind);
        await page.until(`document.body.dataset.busy === 'no' && document.getElementById('seek').value === '${arrivals.length}'`);
        const is = await holdTwo(arrivals, arrivals.length, [first, second], draft);
        assert.match(is.status, /That was the last frame\.$/);
        for (const place of first === 8 && second === 4 ? [20, 33, 7] : [33]) {
          await seek(place);
          await holdTwo(arrivals, place, [first, second], draft);
        }
      }
    }
  });
}

test('two boards over bad links, back and forth, and on frames with several messages', async () => {
  for (const link of [BAD, { seed: 7, lose: 5, double: 60, shuffle: 40, damage: 40 }]) {
    await set({ 'first-window': 16, 'second-window': 4 });
    const arrivals = await begin(link, [...sample, ...(await windowSample('late', '02'))]);
    for (const place of [arrivals.length, 31, 100, 150, 0, 90]) {
      await seek(place);
      await holdTwo(arrivals, place, [16, 4]);
    }
    await put('first-window', 4, 'change');
    await put('second-window', 16, 'change');
    await holdTwo(arrivals, 90, [4, 16]);
  }
});

test('a sample for two boards sets a second board where there is none; without one the page is as before', async () => {
  for (const [first, second] of [[8, '4'], [16, '4'], [4, '16']]) {
    await set({ 'first-window': first, 'second-window': '' });
    await click('mixed');
    await page.until(`document.body.dataset.boards === 'two' && document.body.dataset.busy === 'no' && document.getElementById('seek').value === '54'`);
    assert.equal(await page.evaluate(`document.getElementById('second-window').value`), second);
    assert.match(await textOf('source'), /^Sample, mixed transfers: 54 frames$/);
  }
  const seen = () => page.evaluate(`['compare', 'second', 'second-handed'].map((id) => document.getElementById(id).checkVisibility())`);
  assert.deepEqual(await seen(), [true, true, true]);
  assert.match(await textOf('h-window'), /^First board: window of 4 transfers/);
  await put('second-window', '', 'change');
  assert.deepEqual(await seen(), [false, false, false]);
  assert.match(await textOf('h-window'), /^Window of 4 transfers/);
  assert.equal((await shown()).only, 0);
  await hold(overLink(await windowSample('mixed', '02'), GOOD), 54, { window: 4 });
});

test('why a board lacks a bundle: in words, with the frames to go to', async () => {
  await set({ 'first-window': 16, 'second-window': 4 });
  await click('late');
  await page.until(`document.body.dataset.busy === 'no' && document.getElementById('seek').value === '54'`);
  const items = await page.evaluate(`[...document.querySelectorAll('#lacking li')].map((li) => [...li.querySelectorAll('.what, .only, .why, .go')].map((e) => e.textContent))`);
  assert.deepEqual(items, [
    ['Transfer 104', 'not on the second board',
      'Its row was freed at frame 20, when transfer 108 came: 2 pieces held were lost. 1 message of it came later, the last at frame 48, when it was 12 behind: this board goes back 3.',
      'Lost at frame 20', 'On the first board at frame 48'],
    ['Transfer 106', 'not on the second board',
      'Its row was freed at frame 26, when transfer 110 came: 2 pieces held were lost. 1 message of it came later, the last at frame 35, when it was 6 behind: this board goes back 3.',
      'Lost at frame 26', 'On the first board at frame 35'],
  ]);
  const go = async (k, n) => {
    await page.evaluate(`document.querySelectorAll('#lacking li')[${k}].querySelectorAll('.go')[${n}].click()`);
    await idle();
    return (await shown()).seek;
  };
  assert.equal(await go(1, 1), 35);
  assert.equal((await shown()).lacking.length, 1);
  assert.equal(await go(0, 0), 26);
  assert.equal((await shown()).lacking.length, 0);
  assert.ok(!(await shown()).rows2.some((row) => row.number === '106'));
});

test('two boards by the keyboard', async () => {
  await set({ 'first-window': 8, 'second-window': '' });
  await page.evaluate(`document.getElementById('second-window').focus()`);
  for (const expected of ['4', '8', '16']) {
    await page.key('ArrowDown');
    await page.until(`document.body.dataset.busy === 'no' && document.getElementById('window-2').tBodies[0].rows.length === ${expected}`);
  }
  await page.key('ArrowUp');
  await page.key('Tab');
  assert.equal(await page.evaluate('document.activeElement.id'), 'mixed');
  await page.key('Enter', 'Enter', '\r');
  const arrivals = overLink(await windowSample('mixed', '02'), GOOD);
  await page.until(`document.body.dataset.busy === 'no' && document.getElementById('seek').value === '54'`);
  await page.key('Tab');
  assert.equal(await page.evaluate('document.activeElement.id'), 'late');
  for (let n = 0; n < 4; n++) await page.key('ArrowLeft');
  await idle();
  await holdTwo(arrivals, 50, [8, 8]);
  await page.key('ArrowRight');
  await holdTwo(arrivals, 51, [8, 8]);
  await blur();
});

test('two boards: nothing moves while frames come, names and contrast are good, and narrow screens need no scrolling to the side', async () => {
  await set({ 'first-window': 8, 'second-window': 4 });
  await click('mixed');
  await page.until(`document.body.dataset.busy === 'no' && document.getElementById('seek').value === '54'`);
  const places = () => page.evaluate(`['compare', 'h-lacking', 'h-window', 'h-window-2', 'h-board'].map((id) => Math.round(document.getElementById(id).getBoundingClientRect().top + scrollY))`);
  for (const [width, height] of [[LARGE.width, LARGE.height], [1000, 800], [400, 800]]) {
    await page.size(width, height);
    await wait(100);
    const before = await places();
    for (const place of [0, 5, 13, 19, 40, 54]) {
      await seek(place);
      assert.deepEqual(await places(), before, `${width} px, frame ${place}`);
    }
  }
  for (const width of [320, 400, 700, 1000]) {
    await page.size(width, 800);
    await wait(100);
    assert.ok(await page.evaluate('document.documentElement.scrollWidth <= innerWidth'), `${width} px`);
  }
  await page.size(LARGE.width, LARGE.height);
  await seek(30);
  await wait(500);
  if (pictures) await page.screenshot(path.join(pictures, 'desk-windows.png'));
  assert.deepEqual(await unnamed(page), []);
  const least = await leastContrast(page);
  assert.ok(least.ratio >= 4.5, JSON.stringify(least));
});

/** Makes the receivers of window 4 trap, when asked to. */
const TRAPPING = `const instantiate = WebAssembly.instantiate;
WebAssembly.instantiate = async (module) => {
  const { exports } = await instantiate(module);
  const btpu_receive = (...words) => {
    if (window.trapping && words[2] === 16384n) throw new WebAssembly.RuntimeError('asked for');
    return exports.btpu_receive(...words);
  };
  return { exports: { ...exports, btpu_receive } };
};`;

test('a second board that fails is told, the first goes on, and Restart makes new receivers', async () => {
  const other = await browser.page('about:blank');
  try {
    await other.send('Page.addScriptToEvaluateOnNewDocument', { source: TRAPPING });
    await other.open(`${site.address}/desk.html`);
    await other.until('document.body.dataset.ready');
    await other.evaluate(`document.getElementById('mixed').click()`);
    await other.until(`document.body.dataset.busy === 'no' && document.getElementById('seek').value === '54'`);
    await other.evaluate(`document.getElementById('restart').click()`);
    await other.until(`/54 frames ready/.test(document.getElementById('status').textContent)`);
    for (let k = 0; k < 3; k++) await other.evaluate(`document.getElementById('step').click()`);
    await other.evaluate(`window.trapping = true; document.getElementById('step').click()`);
    const told = 'The second board failed at frame 4: the module trapped: asked for.';
    assert.equal(await other.evaluate(`document.getElementById('status').textContent`), 'Frame 4: taken.');
    assert.equal(await other.evaluate(`document.getElementById('verdict').textContent`), told);
    await other.evaluate(`document.getElementById('end').click()`);
    await other.until(`document.getElementById('seek').value === '54'`);
    assert.equal(await other.evaluate(`document.querySelectorAll('#bundles > li').length`), 14);
    assert.equal(await other.evaluate(`document.querySelectorAll('#lacking > li').length`), 0);
    await other.evaluate(`window.trapping = false; document.getElementById('restart').click()`);
    await other.until(`/54 frames ready/.test(document.getElementById('status').textContent)`);
    await other.evaluate(`document.getElementById('end').click()`);
    await other.until(`/The second board lacks 6 bundles/.test(document.getElementById('verdict').textContent)`);
    assert.deepEqual(other.errors, []);
  } finally {
    await other.close();
  }
});

test('bundles cut here are handed out; a frame size that is refused is said in words', async () => {
  const notice = 'A long notice. '.repeat(40).trim(), texts = ['Timetable: Weir\n07:30 Line R4 Platform 1 Quarry', notice, 'Short'];
  await set({ texts: texts.join('\n---\n'), first: 4294967295, size: 128 });
  await click('cut');
  await says('/^3 bundles cut into \\d+ frames/');
  await toTheEnd();
  const bundles = (await shown()).bundles.map((b) => [b.number, Buffer.from(b.octets, 'hex').toString()]);
  assert.deepEqual(bundles, [['-', texts[0]], ['4294967295', texts[1]], ['-', texts[2]]]);
  for (const size of ['100', '2049', '']) {
    await set({ size });
    await page.evaluate(`document.getElementById('status').textContent = ''; document.getElementById('cut').click()`);
    await says('/^Not cut/');
    assert.match(await status(), /refusal 14: frame size outside 128 to 2,048/);
  }
  await set({ size: 128, texts: 'x'.repeat(5000) });
  await click('cut');
  await says('/^Not cut. refusal 11: bundle of 0 or more than 4,096 octets/');
});

test('pasted lines; refused frames in words with the bad octets marked', async () => {
  const short = ['0200000441', '030000', '0280000102', '05000003000000', '00', '02100000', '0300000700000000000000'];
  await paste([...short, `${'00'.repeat(10)}0500000141`]);
  await toTheEnd();
  const items = await page.evaluate(`[...document.querySelectorAll('#refused li')].reverse()
    .map((li) => ['.what', 'mark', 'pre'].map((part) => li.querySelector(part).textContent))`);
  const content = 'content of a transfer message too short, or of a cancel not 4 octets';
  assert.deepEqual(items, [
    ['Frame 1: a length runs past the frame', '02 00 00 04', '02 00 00 04 41'],
    ['Frame 2: fewer than 4 octets left for a header', '03 00 00', '03 00 00'],
    ['Frame 3: a chain of hints runs past its message', '02 80 00 01', '02 80 00 01 02'],
    [`Frame 4: ${content}`, '05 00 00 03', '05 00 00 03 00 00 00'],
    [`Frame 7: ${content}`, '03 00 00 07', '03 00 00 07 00 00 00 00 00 00 00'],
    [`Frame 8: ${content}`, '05 00 00 01', '… 00 00 00 00 00 00 00 00 05 00 00 01 41'],
  ]);
  await page.evaluate(`document.querySelector('#refused .go').click()`);
  await idle();
  assert.equal((await shown()).seek, 8);
});

test('every control and picture has a name, and the contrast is enough', async () => {
  const arrivals = await begin(BAD);
  await seek(105);
  await wait(500);
  if (pictures) await page.screenshot(path.join(pictures, 'desk.png'));
  const least = await leastContrast(page);
  assert.ok(least.ratio >= 4.5, JSON.stringify(least));
  await page.evaluate(`for (const details of document.querySelectorAll('details')) details.open = true`);
  assert.deepEqual(await unnamed(page), []);
  assert.ok((await leastContrast(page)).ratio >= 4.5);
  await page.evaluate(`for (const details of document.querySelectorAll('details')) details.open = false`);
  await hold(arrivals, 105);
});

test('narrow screens need no scrolling to the side', async () => {
  for (const width of [400, 320, 700, 1000]) {
    await page.size(width, 800);
    await wait(100);
    assert.ok(await page.evaluate('document.documentElement.scrollWidth <= innerWidth'), `${width} px`);
  }
  await page.size(LARGE.width, LARGE.height);
});

test('a recorded night, in the middle', async () => {
  await useLink(GOOD);
  const frames = await night();
  await open('night.recording', recorder.record(frames));
  await seek(Math.round(frames.length / 2));
  await put('station', 'Mill Bridge', 'change');
  const is = await hold(overLink(frames, GOOD), Math.round(frames.length / 2), { station: 'Mill Bridge' });
  assert.ok(is.departures.length > 3 && is.notices.length > 1 && frames.length > 300);
  await wait(500);
  if (pictures) await page.screenshot(path.join(pictures, 'desk-night.png'));
  await put('station', '', 'change');
});

test('frames passed on are shown by the board in another tab, each once', async () => {
  const board = await browser.page(`${site.address}/board.html?now=07:10&station=Harbour&board=desk-test`);
  try {
    await board.until('document.body.dataset.ready');
    await begin(GOOD);
    await page.evaluate(`window.heard = 0; new BroadcastChannel('btpu-frames').onmessage = () => window.heard++`);
    await page.evaluate(`document.getElementById('send').checked = true`);
    await toTheEnd();
    await seek(10);
    await toTheEnd();
    await page.until(`window.heard >= ${sample.length}`);
    await board.until(`document.querySelectorAll('#departures tbody tr').length > 3`);
    assert.match(await board.evaluate(`document.getElementById('station').textContent`), /Harbour/);
    await wait(100);
    assert.equal(await page.evaluate('window.heard'), sample.length);
    assert.deepEqual(board.errors, []);
  } finally {
    await page.evaluate(`document.getElementById('send').checked = false`);
    await board.close();
  }
});

test('frames are passed on to boards of their own draft alone', async () => {
  const address = (draft) => `${site.address}/board.html?now=07:10&board=desk-${draft}&draft=${draft}`;
  const boards = await Promise.all(['00', '02'].map((draft) => browser.page(address(draft))));
  const taken = (board) => board.evaluate(`document.querySelector('#counts dd').textContent`);
  try {
    for (const board of boards) await board.until('document.body.dataset.ready');
    await useDraft00();
    await begin(GOOD, sample00);
    await page.evaluate(`document.getElementById('send').checked = true`);
    await toTheEnd();
    const good = sample00.length - natively(sample00, { draft: '00' }).refused.length;
    await boards[0].until(`document.querySelector('#counts dd').textContent === '${good}'`);
    assert.ok(await boards[0].evaluate(`document.querySelectorAll('#departures tbody tr').length > 3`));
    await paste(['0200000141']);
    await put('draft', '02', 'change');
    await savesAs('recording');
    await toTheEnd();
    await boards[1].until(`document.querySelector('#counts dd').textContent !== '0'`);
    assert.deepEqual(await Promise.all(boards.map(taken)), [`${good}`, '1']);
  } finally {
    await page.evaluate(`document.getElementById('send').checked = false`);
    for (const board of boards) await board.close();
  }
});

test('a trap is told, and Restart makes a new receiver', async () => {
  site.made.set('/btpu.wasm', Buffer.from(withStack(fs.readFileSync(path.join(web, 'btpu.wasm')), 8192)));
  const starved = await browser.page(`${site.address}/desk.html`);
  try {
    await starved.until('document.body.dataset.ready');
    const frames = [octets('0200000141'), Uint8Array.from(message(2, 128, chain(1022))), octets('0200000142')];
    await starved.evaluate(`document.getElementById('lines').value = ${JSON.stringify(writeHex(frames))}`);
    await starved.evaluate(`document.getElementById('paste').click()`);
    await starved.until(`document.querySelectorAll('#strip .f').length === 3`);
    await starved.evaluate(`document.getElementById('end').click()`);
    await starved.until(`/failed at frame 2: the module trapped.*Restart/.test(document.getElementById('status').textContent)`);
    await starved.evaluate(`document.getElementById('restart').click()`);
    await starved.until(`/3 frames ready/.test(document.getElementById('status').textContent)`);
    await starved.evaluate(`document.getElementById('step').click()`);
    assert.equal(await starved.evaluate(`document.querySelectorAll('#bundles > li').length`), 1);
    assert.deepEqual(starved.errors, []);
  } finally {
    site.made.delete('/btpu.wasm');
    await starved.close();
  }
});

test('a module that does not load is said', async () => {
  site.made.set('/btpu.wasm', Buffer.from('no module'));
  const failed = await browser.page(`${site.address}/desk.html`);
  try {
    await failed.until(`document.body.dataset.ready === 'failed'`);
    assert.match(await failed.evaluate(`document.getElementById('status').textContent`), /The desk does not work: /);
  } finally {
    site.made.delete('/btpu.wasm');
    await failed.close();
  }
});

test('nothing was loaded from elsewhere, and no error was logged', async () => {
  const names = await page.evaluate(`performance.getEntriesByType('resource').map((entry) => entry.name)`);
  assert.ok(names.length >= 6 && names.every((name) => name.startsWith(site.address) || name.startsWith('blob:')), names.join('\n'));
  assert.deepEqual(page.errors, []);
});
