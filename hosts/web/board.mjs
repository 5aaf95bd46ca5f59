// @ts-check
/**
 * The board. It takes frames from whatever calls `board.receive(octets)`, from the desk page in another tab, or from a file.
 *
 *     board.html?station=NAME      the timetable to show; the last one received if not given
 *               &board=NAME        the name under which this board keeps its state: several boards in one browser need different ones
 *               &draft=00          the draft of the frames that it takes: 00 or 02; 02 if not given
 *               &window=4          how many transfers its window has: 4, 8 or 16; if not given, as many as in what it kept, else 8
 *               &demo              plays the sample
 *               &now=HH:MM         stops the clock, to try things out
 *               &today=YYYY-MM-DD  and the day
 */
import { Receiver, Recorder, RefusalError, SIZES, TrapError, load, readWindow } from './btpu.mjs';
import { element, departureRows, fileBeside, make, many, nameIn, sampleOf } from './dom.mjs';
import { readHex } from './frames.mjs';
import { NOTHING, departuresFrom, showing, tableOf, textOf } from './timetable.mjs';

/** @typedef {import('./timetable.mjs').Shown} Shown */
/** @typedef {import('./timetable.mjs').Departure} Departure */
/** @typedef {import('./btpu.mjs').WindowSize} WindowSize */
/**
 * Frames taken, refused and lost, and bundles handed out.
 * @typedef {{ taken: number, refused: number, lost: number, bundles: number }} Counts
 */
/**
 * What is kept besides the receiver; `at`: when a frame was last taken, in ms.
 * @typedef {Counts & { shown: Shown, at: number | null }} Kept
 */
/** @typedef {{ job: () => Promise<void>, ok: (kept: boolean) => void, no: (error: unknown) => void }} Waiting */

const VERSION = 'btpu-board 1';
/** The octet of a receiver's image that tells its window; and the window of those that were kept before it did. */
const WINDOW = 1, OLDER_WINDOW = 16;
const MOST_ROWS = 40, MOST_NOTICES = 4, MOST_LATER = 5, MOST_FAULTS = 3;
/** Where a screen lacks room: first departures are left out down to so many, then notices; then the same again. */
const LEAST = [{ rows: 6, notices: 2 }, { rows: 3, notices: 1 }];
const MOST_AT_ONCE = 256;
const OLD = 6 * 60 * 60 * 1000;
const PAUSE = 100;

const query = new URLSearchParams(location.search);
const key = `btpu-board ${query.get('board') ?? ''}`.trim();
/** Any other than 00 and 02 makes the board fail, in words. */
const draft = /** @type {import('./btpu.mjs').Draft} */ (query.get('draft') ?? '02');
/**
 * The window that the address asks for, if it names one; any other than 4, 8 and 16 makes the board fail, in words.
 * @type {WindowSize | undefined}
 */
const asked = namedWindow(query.get('window'));
/**
 * How many transfers the window has.
 * @type {WindowSize}
 */
let size = asked ?? SIZES.plainWindow;

/** @type {WebAssembly.Module} */ let module;
/** @type {Receiver} */ let receiver;
/**
 * The receiver before the frame that was taken last.
 * @type {import('./btpu.mjs').SavedReceiver}
 */
let before;
/** @type {Kept} */ let record = newRecord();
/**
 * What is wrong, in words, until it is over.
 * @type {Map<string, string>}
 */
const troubles = new Map();
/** What is said once, until a bundle comes, and is no trouble. */
let told = '';
/**
 * Frames that wait to be taken, and what else waits its turn.
 * @type {Waiting[]}
 */
const waiting = [];
let working = false;

/**
 * A window as the address names it; 0, which is refused, where that is none.
 * @param {string | null} text
 */
function namedWindow(text) {
  if (text === null) return undefined;
  return /** @type {WindowSize} */ (['4', '8', '16'].includes(text) ? Number(text) : 0);
}

/** @returns {Kept} */
function newRecord() {
  return { shown: NOTHING, taken: 0, refused: 0, lost: 0, bundles: 0, at: null };
}

/** The time now, or that of the address. */
function present() {
  const now = new Date();
  const day = /^(\d{4})-(\d\d)-(\d\d)$/.exec(query.get('today') ?? '');
  const time = /^([01]\d|2[0-3]):([0-5]\d)$/.exec(query.get('now') ?? '');
  if (day !== null) now.setFullYear(Number(day[1]), Number(day[2]) - 1, Number(day[3]));
  if (time !== null) now.setHours(Number(time[1]), Number(time[2]), 0, 0);
  return now;
}

/**
 * @param {Date} date
 * @returns {string} HH:MM
 */
const clockOf = (date) => [date.getHours(), date.getMinutes()].map((n) => String(n).padStart(2, '0')).join(':');

// What is kept over a reload is one item, receiver and what is shown together: a transfer that is done is never handed out again.

/**
 * A check sum (FNV-1a) of text, as hex.
 * @param {string} text
 */
function sumOf(text) {
  let sum = 0x811c9dc5;
  for (let k = 0; k < text.length; k++) sum = Math.imul(sum ^ text.charCodeAt(k), 0x01000193);
  return (sum >>> 0).toString(16).padStart(8, '0');
}

/** @param {Uint8Array} octets */
function base64(octets) {
  let text = '';
  for (let k = 0; k < octets.length; k += 8192) text += String.fromCharCode(...octets.subarray(k, k + 8192));
  return btoa(text);
}

/** @param {string} text */
const fromBase64 = (text) => Uint8Array.from(atob(text), (c) => c.charCodeAt(0));

/**
 * Stores all.
 * @returns {boolean} whether it could
 */
function keep() {
  const { image, pool } = receiver.broken ? before : receiver.save();
  const text = JSON.stringify({ image: base64(image), pool: base64(pool), record });
  try {
    localStorage.setItem(key, `${VERSION} ${sumOf(text)} ${text}`);
  } catch (e) {
    const full = e instanceof DOMException && e.name === 'QuotaExceededError';
    const why = full ? "the browser's storage is full" : 'the browser does not let it store anything';
    troubles.set('storage', `This board cannot keep what it receives: ${why}. After a restart it begins anew.`);
    return false;
  }
  troubles.delete('storage');
  return true;
}

/**
 * What was stored, or null where there is nothing.
 * @returns {string | null}
 */
function stored() {
  try {
    return localStorage.getItem(key);
  } catch {
    troubles.set('storage', 'This board cannot keep what it receives: the browser gives it no storage. After a restart it begins anew.');
    return null;
  }
}

/** Goes on from what was stored. */
async function takeUp() {
  const text = stored();
  if (text === null) return;
  try {
    const head = `${VERSION} ${sumOf(text.slice(VERSION.length + 10))} `;
    if (!text.startsWith(head)) throw new Error('another version, or a wrong check sum');
    const kept = JSON.parse(text.slice(head.length)), saved = { image: fromBase64(kept.image), pool: fromBase64(kept.pool) };
    // Kept before windows could be chosen, an image does not tell its window, which was 16 then.
    const older = saved.image[WINDOW] === 0;
    if (older) saved.image[WINDOW] = OLDER_WINDOW;
    await goOn(saved);
    record = kept.record;
    size = asked ?? receiver.windowSize;
    if (receiver.draft !== draft || receiver.windowSize !== size) await changeSettings();
    else if (older) tellOlder();
  } catch {
    await begin();
    troubles.set('kept', 'What was kept could not be read: this board began anew.');
  }
}

/** A fresh receiver, with the window that the address names or, where it names none, the plain one. */
async function begin() {
  size = asked ?? SIZES.plainWindow;
  receiver = await Receiver.create({ draft, window: size }, module);
}

/** Says that the receiver goes on from what was kept before windows could be chosen, and keeps it as what it is. */
function tellOlder() {
  told = `What was kept is from before windows could be chosen: this board goes on with its window of ${OLDER_WINDOW} transfers.`;
  keep();
}

/**
 * What was kept is of another draft or another window than the address asks for now: the receiver begins anew, and what is shown stays.
 */
async function changeSettings() {
  const dropped = `What was on the way is dropped: ${many(onTheWay().length, 'transfer')}.`;
  const changed = [
    ...(receiver.draft === draft ? [] : [[`draft ${receiver.draft}`, `draft ${draft}`]]),
    ...(receiver.windowSize === size ? [] : [[`a window of ${receiver.windowSize}`, `a window of ${size}`]]),
  ];
  const [before, now] = [0, 1].map((k) => changed.map((words) => words[k]).join(' and '));
  receiver = await Receiver.create({ draft, window: size }, module);
  troubles.set('kept', `This board was set to ${before} before, and is set to ${now} now. ${dropped}`);
}

// Frames are taken in order. Those that wait are taken in one go, then all is stored and drawn once.

/**
 * @param {unknown} octets
 * @returns {Uint8Array} a copy: the caller may use its own again
 */
function copyOf(octets) {
  if (octets instanceof ArrayBuffer) return new Uint8Array(octets.slice(0));
  if (ArrayBuffer.isView(octets)) return new Uint8Array(octets.buffer, octets.byteOffset, octets.byteLength).slice();
  throw new TypeError('a frame is a Uint8Array, another view or an ArrayBuffer');
}

/**
 * Takes a frame.
 * @param {unknown} octets
 * @returns {Promise<boolean>} settled when it is taken; whether it was stored too
 */
async function receive(octets) {
  const frame = copyOf(octets);
  return inTurn(() => take(frame));
}

/**
 * @param {() => Promise<void>} job
 * @returns {Promise<boolean>} settled when it is done; whether the outcome was stored
 */
function inTurn(job) {
  return new Promise((ok, no) => {
    waiting.push({ job, ok, no });
    if (!working) work();
  });
}

/**
 * Lets the browser do what else waits, further messages from the desk among it.
 * @returns {Promise<void>}
 */
function pass() {
  return new Promise((ok) => {
    const { port1, port2 } = new MessageChannel();
    port1.onmessage = () => {
      port1.close();
      ok();
    };
    port2.postMessage(null);
  });
}

async function work() {
  working = true;
  for (await pass(); waiting.length > 0; await pass()) {
    const some = waiting.splice(0, MOST_AT_ONCE);
    /** @type {Waiting[]} */ const done = [];
    for (const entry of some) {
      try {
        await entry.job();
        done.push(entry);
        troubles.delete('fault');
      } catch (e) {
        troubles.set('fault', `This board does not work: ${messageOf(e)}.`);
        entry.no(e);
      }
    }
    const kept = keep();
    draw();
    for (const { ok } of done) ok(kept);
  }
  working = false;
}

/** @param {Uint8Array} frame */
async function take(frame) {
  if (receiver.broken) await goOn(before);
  before = receiver.save();
  try {
    const { bundles, refusal } = receiver.receive(frame);
    show(bundles);
    troubles.delete('trap');
    if (refusal === null) {
      record.taken++;
      record.at = present().getTime();
    } else {
      record.refused++;
    }
  } catch (e) {
    if (!(e instanceof TrapError)) throw e;
    // The frame counts as lost; what it handed out before the trap is shown.
    show(e.bundles);
    record.lost++;
    troubles.set('trap', 'A part of what was sent could not be read.');
    await goOn(before);
  }
}

/**
 * Another receiver, with the window of what was saved, which goes on from there.
 * @param {import('./btpu.mjs').SavedReceiver} saved
 */
async function goOn(saved) {
  const next = await Receiver.create({ draft, window: /** @type {WindowSize} */ (readWindow(saved.image).rows.length) }, module);
  next.restore(saved);
  receiver = next;
}

/** The transfers of which pieces are here and others are not. */
const onTheWay = () => (receiver.broken ? [] : receiver.window().rows.filter((row) => row.phase === 'open'));

/** @param {import('./btpu.mjs').Bundle[]} bundles */
function show(bundles) {
  for (const { octets } of bundles) record.shown = showing(record.shown, octets);
  record.bundles += bundles.length;
  if (bundles.length === 0) return;
  troubles.delete('kept');
  told = '';
}

// The page

/**
 * Sets a text where it differs, so that nothing is read out twice.
 * @param {string} id
 * @param {string} text
 */
function tell(id, text) {
  const at = element(id);
  at.hidden = text === '';
  if (at.textContent !== text) at.textContent = text;
}

function draw() {
  const now = present();
  const station = query.get('station') ?? '';
  const table = tableOf(record.shown, station);
  const name = table?.station ?? station;
  tell('clock', clockOf(now));
  tell('station', name || 'Departures');
  tell('subtitle', name && 'Departures');
  document.title = name ? `Departures ${name}` : 'Departures';
  const coming = departuresFrom(table, clockOf(now));
  tell('empty', coming.length > 0 ? '' : emptyWords(table !== undefined, station));
  tell('notes', coming.length > 0 ? (table?.notes ?? []).join(' · ') : '');
  drawStatus(now);
  drawSetup(station);
  fit(coming);
}

/**
 * @param {boolean} known whether there is a timetable
 * @param {string} station
 */
function emptyWords(known, station) {
  if (known) return 'No more departures today.';
  return station === '' ? 'Waiting for the timetable.' : `Waiting for the timetable of ${station}.`;
}

/**
 * As many departures and notices as the screen has room for; the later departures in one line.
 * @param {Departure[]} coming
 */
function fit(coming) {
  let rows = Math.min(coming.length, MOST_ROWS);
  let notices = Math.min(record.shown.notices.length, MOST_NOTICES);
  const body = element('departures').tBodies[0];
  body.replaceChildren(...departureRows(coming.slice(0, rows)));
  element('departures').hidden = rows === 0;
  drawNotices(notices);
  tell('later', laterWords(coming.slice(rows)));
  const page = document.documentElement;
  for (const least of LEAST) {
    while (page.scrollHeight > page.clientHeight && rows > least.rows) {
      body.rows[--rows].remove();
      tell('later', laterWords(coming.slice(rows)));
    }
    while (page.scrollHeight > page.clientHeight && notices > least.notices) drawNotices(--notices);
  }
}

/** @param {Departure[]} later */
function laterWords(later) {
  if (later.length === 0) return '';
  const words = later.slice(0, MOST_LATER).map(({ time, to, remark }) => `${time}\u00a0${to}${remark === '' ? '' : ` (${remark})`}`);
  return `Later: ${words.join(', ')}${later.length > MOST_LATER ? ', …' : ''}`;
}

/**
 * The last notices, the newest first. What stays is left as it is, so that it is not read out again.
 * @param {number} count
 */
function drawNotices(count) {
  const texts = record.shown.notices.slice(-MOST_NOTICES).reverse();
  const box = element('notices');
  const before = Array.from(box.children, (p) => p.textContent);
  if (JSON.stringify(before) !== JSON.stringify(texts)) box.replaceChildren(...texts.map((text) => make('p', '', text)));
  Array.from(box.children).forEach((p, k) => { p.hidden = k >= count; });
  box.hidden = count === 0;
}

/** @param {Date} now */
function drawStatus(now) {
  const old = record.at !== null && record.shown.timetables.length > 0 && now.getTime() - record.at > OLD;
  tell('status', [...troubles.values(), told, receivedWords(now, old)].filter(Boolean).join(' '));
  element('status').className = troubles.size > 0 ? 'bad' : old ? 'old' : '';
}

/**
 * @param {Date} date
 * @returns {string} weekday, day, month and year
 */
function dayOf(date) {
  const weekday = date.toLocaleDateString('en', { weekday: 'long' });
  const month = date.toLocaleDateString('en', { month: 'long' });
  return `${weekday} ${date.getDate()} ${month} ${date.getFullYear()}`;
}

/**
 * @param {Date} now
 * @param {boolean} old whether what is shown may be out of date
 */
function receivedWords(now, old) {
  if (record.at === null) return 'Nothing received yet.';
  const at = new Date(record.at);
  const when = at.toDateString() === now.toDateString() ? clockOf(at) : `${clockOf(at)} on ${dayOf(at)}`;
  if (old) return `Last received ${when}: this timetable may be out of date.`;
  const more = onTheWay().length > 0 ? ' More is on the way.' : '';
  return `Last received ${when}.${more}`;
}

/** @param {string} station */
function drawSetup(station) {
  const names = new Set([station, ...record.shown.timetables.map((table) => table.station)]);
  names.delete('');
  const choices = ['', ...[...names].sort()];
  const select = element('choose');
  if (JSON.stringify(Array.from(select.options, (o) => o.value)) !== JSON.stringify(choices)) {
    select.replaceChildren(...choices.map((name) => new Option(name || 'the last one received', name)));
  }
  select.value = station;
  const open = onTheWay();
  const pieces = open.reduce((sum, row) => sum + row.pieces.length, 0);
  const counts = {
    'Frames taken': record.taken,
    'Frames refused': record.refused,
    'Frames lost by a trap': record.lost,
    'Bundles handed out': record.bundles,
    'On the way': `${many(open.length, 'transfer')}, ${many(pieces, 'piece')} here`,
    Draft: draft,
    Window: many(size, 'transfer'),
  };
  const lines = Object.entries(counts).flatMap(([name, count]) => [make('dt', '', name), make('dd', '', count.toLocaleString('en'))]);
  element('counts').replaceChildren(...lines);
}

// Ways in

/**
 * The frames of a file, which is a recording or lines of hex; and what is wrong with it, in words.
 * @param {Uint8Array} octets
 * @returns {Promise<{ frames: Uint8Array[], wrong: string }>}
 */
async function framesOf(octets) {
  const recorder = await Recorder.create(module);
  try {
    const frames = recorder.open(octets);
    if (draft === '02') return { frames, wrong: '' };
    return { frames: [], wrong: `The file was not taken: a recording is draft 02, and this board is set to draft ${draft}.` };
  } catch (e) {
    if (!(e instanceof RefusalError)) throw e;
    const text = textOf(octets);
    if (text === null) return { frames: [], wrong: `The file was not taken: no lines of hex, and no good recording (${e.message}).` };
    const { frames, faults } = readHex(text);
    return { frames, wrong: faultWords(faults, frames.length) };
  }
}

/**
 * @param {{ line: number, words: string }[]} faults
 * @param {number} frames
 */
function faultWords(faults, frames) {
  if (faults.length === 0) return frames === 0 ? 'There is no frame in this file.' : '';
  const named = faults.slice(0, MOST_FAULTS).map(({ line, words }) => `line ${line} (${words})`).join(', ');
  return `${many(faults.length, 'line')} of the file left out: ${named}${faults.length > MOST_FAULTS ? ', …' : ''}.`;
}

async function takeFile() {
  const input = element('file');
  const file = input.files[0];
  if (file === undefined) return;
  troubles.delete('file');
  try {
    const { frames, wrong } = await framesOf(new Uint8Array(await file.arrayBuffer()));
    if (wrong !== '') troubles.set('file', wrong);
    await Promise.all(frames.map(receive));
  } catch (e) {
    troubles.set('file', `The file was not taken: ${messageOf(e)}.`);
  }
  input.value = '';
  draw();
}

async function playSample() {
  element('demo').disabled = true;
  try {
    const { frames } = readHex(await sampleOf(draft));
    troubles.delete('file');
    for (const frame of frames) {
      await receive(frame);
      await new Promise((ok) => setTimeout(ok, PAUSE));
    }
  } catch (e) {
    troubles.set('file', `The sample was not played: ${messageOf(e)}.`);
    draw();
  }
  element('demo').disabled = false;
}

function choose() {
  const station = element('choose').value;
  if (station === '') query.delete('station');
  else query.set('station', station);
  try {
    history.replaceState(null, '', `?${query}`);
  } catch {
    // from file: the address may have to stay; the choice then lasts until a reload
  }
  draw();
}

/** The first press asks, the second one forgets. */
function askToForget() {
  const asked = element('asked').textContent !== '';
  element('asked').textContent = asked ? '' : 'This board will forget all that it received. Press “Forget all” again to do so.';
  if (asked) inTurn(forget);
}

async function forget() {
  await begin();
  record = newRecord();
  troubles.clear();
  told = '';
}

/** @param {unknown} e */
const messageOf = (e) => (e instanceof Error ? e.message : String(e));

/** Every second: the clock, and another attempt at storing where one failed. */
function tick() {
  const again = troubles.has('storage') && keep();
  if (again || element('clock').textContent !== clockOf(present())) draw();
}

function listen() {
  element('file').addEventListener('change', takeFile);
  element('choose').addEventListener('change', choose);
  element('demo').addEventListener('click', playSample);
  element('forget').addEventListener('click', askToForget);
  element('forget').addEventListener('blur', () => { element('asked').textContent = ''; });
  addEventListener('resize', draw);
  addEventListener('keydown', (e) => {
    if (e.key !== 'Escape' || !element('setup').open) return;
    element('setup').open = false;
    element('setup').querySelector('summary').focus();
  });
  addEventListener('storage', (e) => {
    if (e.key !== key || e.newValue === null) return;
    troubles.set('name', 'Another board in this browser has the same name: give each its own, with ?board=NAME in the address.');
    draw();
  });
  setInterval(tick, 1000);
}

/** The ways of the host and of the desk in; the desk's frames are those of this board's draft. */
function openWays() {
  Object.assign(window, { board: { receive } });
  if (typeof BroadcastChannel === 'undefined') return;
  new BroadcastChannel(nameIn('btpu-frames', draft)).addEventListener('message', ({ data }) => {
    if (data instanceof Uint8Array) receive(data).catch(() => {}); // the status tells of it
  });
}

try {
  module = await load(await fileBeside('btpu.wasm'));
  await begin();
  await takeUp();
  draw();
  listen();
  openWays();
  if (query.has('demo')) playSample();
  document.body.dataset.ready = 'yes';
} catch (e) {
  tell('status', `This board does not work: ${messageOf(e)}.`);
  element('status').className = 'bad';
  document.body.dataset.ready = 'failed';
}
