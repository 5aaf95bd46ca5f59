// @ts-check
// The control room's desk: frames from a file, over a link that can be made bad, into the same receiver that the boards have; and into a
// second one, to see what a small window costs.
import { Receiver, Recorder, RefusalError, Sender, load } from './btpu.mjs';
import { drawComparison, lacking } from './compare.mjs';
import { departureRows, element, figure, fileBeside, make, many, nameIn, sampleOf } from './dom.mjs';
import { hexOf, overLink, readHex, readingHex, writeHex } from './frames.mjs';
import { Run } from './run.mjs';
import { windowSample } from './samples.mjs';
import { departuresFrom, tableOf, textOf } from './timetable.mjs';

const $ = element;

/** @typedef {import('./frames.mjs').Fault} Fault */
/** @typedef {import('./btpu.mjs').Row} Row */

/** Milliseconds of work after which the page gets time to answer, and between two drawings of everything. */
const SLICE = 20, DRAWN = 150;
/** The most that is drawn at once. */
const CELLS = 512, LISTED = 100, DEPARTURES = 6, NOTICES = 3, FAULTS = 5;
const LINK = ['lose', 'double', 'shuffle', 'damage', 'seed'];
/** The piece with the highest index, which tells how many there are, by draft. */
const FINAL = { '00': 'start', '02': 'last piece' };

/** @type {WebAssembly.Module} */ let module;
/** @type {Receiver} */ let receiver;
/**
 * Of the second board, if there is one.
 * @type {Receiver | null}
 */
let secondReceiver = null;
/** @type {Uint8Array[]} */ let sent = [];
/** Whether these frames come from a recording. */ let recorded = false;
/** @type {import('./frames.mjs').Arrival[]} */ let arrivals = [];
/** @type {Run} */ let run;
/**
 * The second board's run, at the same place.
 * @type {Run | null}
 */
let second = null;
/** How many octets of each arrival the board page has got. */ let passedOn = new Uint32Array(0);
/**
 * To the boards of each draft; none where there is no board to pass frames to.
 * @type {Record<string, BroadcastChannel>}
 */
const channels = {};

// ---- words

/** @param {string} words */
const say = (words) => $('status').replaceChildren(words);

/** @param {unknown} e */
const wordsOf = (e) => (e instanceof Error ? e.message : `${e}`);

/**
 * The name of a frame: its place among the arrivals, and among the frames sent where that is another.
 * @param {number} k
 */
function nameOf(k) {
  const { source } = arrivals[k];
  return `Frame ${figure(k + 1)}${source === k ? '' : ` (sent as ${figure(source + 1)})`}`;
}

function placeInWords() {
  if (run.length === 0) return 'No frames';
  return `Frame ${figure(run.position)} of ${figure(run.length)}, ${many(run.messages, 'message')}`;
}

/** @param {{ arrival: number, messages: number, of: number }} stopped */
function stopInWords({ arrival, messages, of }) {
  const after = `Stopped after ${many(run.messages, 'message')}`;
  if (arrival < 0) return `${after}.`;
  if (messages === of) return `${after}, with frame ${figure(arrival + 1)}.`;
  return `${after}, inside frame ${figure(arrival + 1)}: ${messages} of its ${of} messages were treated.`;
}

/** What happened last. */
function happened() {
  const { broken, stopped, position } = run;
  if (broken !== null) {
    const before = broken.bundles.length === 0 ? '' : ` ${many(broken.bundles.length, 'bundle')} of this frame had been handed out.`;
    return `The receiver failed at frame ${figure(broken.arrival + 1)}: ${broken.words}.${before} Restart makes a new receiver.`;
  }
  if (stopped !== null) return stopInWords(stopped);
  if (position === 0) return sent.length === 0 ? 'Choose a file of frames, or take the sample.' : `${many(sent.length, 'frame')} ready.`;
  const { fate, refusal, bundles } = run.events[position - 1];
  const last = run.atEnd ? ' That was the last frame.' : '';
  if (refusal !== null) return `${nameOf(position - 1)}: refused, ${refusal.words}.${last}`;
  return `${nameOf(position - 1)}: ${bundles.length > 0 ? `${many(bundles.length, 'bundle')} handed out` : fate}.${last}`;
}

// ---- long work, in slices

/**
 * What is going on; a seek has a place that it goes to.
 * @type {{ target: number | undefined } | null}
 */
let job = null;
let drawnAt = 0;

/** @param {number} ms */
const rest = (ms) => new Promise((done) => setTimeout(done, Math.max(0, ms)));

/**
 * @param {string} words
 * @param {number} [target]
 */
function begin(words, target) {
  job = { target };
  document.body.dataset.busy = 'yes';
  if (words !== '') say(words);
  drawControls();
  return job;
}

/**
 * Ends what is going on, whether it is done or not.
 * @param {string} [words]
 */
function halt(words) {
  job = null;
  document.body.dataset.busy = 'no';
  $('reading').hidden = true;
  $('seek').hidden = false;
  draw();
  if (words !== undefined) say(words);
}

/** Draws the place at once, and the rest if that is some time ago. */
function drawSoon() {
  if (performance.now() - drawnAt >= DRAWN) draw();
  else drawPlace();
}

/**
 * Goes forward until a place is reached, at a pace, and leaves the page time to answer.
 * @param {() => boolean} advance answers whether there was something to take
 * @param {() => boolean} reached
 * @param {() => number} pace frames a second
 * @param {string} words
 * @param {number} [target] of a seek
 */
async function drive(advance, reached, pace, words, target) {
  const own = begin(words, target);
  for (let due = performance.now(); job === own;) {
    const from = performance.now();
    // What a sleeping page missed is not made up for.
    due = Math.max(due, from - 10 * SLICE);
    for (let now = from; !reached() && now - from < SLICE && due <= now; now = performance.now()) {
      if (!advance()) return halt(happened());
      due += 1000 / pace();
    }
    if (reached()) return halt(happened());
    drawSoon();
    await rest(due - performance.now());
  }
}

// ---- the run

/** @returns {import('./frames.mjs').Link} */
function link() {
  const [lose, double, shuffle, damage, seed] = LINK.map((id) => Number($(id).value));
  return { lose, double, shuffle, damage, seed: seed >>> 0 };
}

/** The limit of messages; an empty field sets none. */
function limit() {
  const text = $('limit').value.trim(), messages = Number(text);
  const good = !$('limit').validity.badInput && (text === '' || (Number.isSafeInteger(messages) && messages >= 0));
  $('limit').setAttribute('aria-invalid', `${!good}`);
  return { messages: good && text !== '' ? messages : Infinity };
}

/**
 * The draft that the desk is set to.
 * @returns {import('./btpu.mjs').Draft}
 */
const chosenDraft = () => $('draft').value;

/**
 * A receiver of a draft with the window that a control is set to: the one that was there, where it is such a one.
 * @param {Receiver | null} before
 * @param {string} control
 */
async function receiverFor(before, control) {
  const draft = chosenDraft(), window = /** @type {import('./btpu.mjs').WindowSize} */ (Number($(control).value));
  const fits = before !== null && !before.broken && before.draft === draft && before.windowSize === window;
  return fits ? before : Receiver.create({ draft, window }, module);
}

/** Receivers as the controls ask for them. */
async function setBoards() {
  const first = await receiverFor(receiver ?? null, 'first-window');
  const other = $('second-window').value === '' ? null : await receiverFor(secondReceiver, 'second-window');
  [receiver, secondReceiver] = [first, other];
}

/** Runs of all boards from the first frame on. */
function newRuns() {
  run = new Run(receiver, arrivals, limit());
  second = secondReceiver === null ? null : new Run(secondReceiver, arrivals, limit());
  document.body.dataset.boards = second === null ? 'one' : 'two';
}

/** Sends the frames over the link and begins anew. */
async function restart() {
  await setBoards();
  arrivals = overLink(sent, link());
  passedOn = new Uint32Array(arrivals.length);
  newRuns();
  halt(happened());
}

/** Sets boards to other windows; the place stays. */
async function changeWindows() {
  await setBoards();
  const place = run.position;
  newRuns();
  await seek(place);
}

/** Sets the desk to the draft chosen and begins anew, unless the frames are those of a recording, which is draft 02. */
function changeDraft() {
  if (!recorded || chosenDraft() === '02') return restart();
  $('draft').value = '02';
  say('A recording is draft 02: the desk stays set to draft 02 until other frames are loaded.');
}

/** Sets another limit of messages; the place stays where it lies before it. */
async function changeLimit() {
  if (receiver.broken || secondReceiver?.broken) return restart();
  const place = run.position;
  newRuns();
  await seek(place);
}

/**
 * Takes one arrival, and passes it on to the board page where that is asked for.
 * @returns {boolean} whether there was one
 */
function forward() {
  const k = run.position;
  if (!run.step()) return false;
  second?.goTo(run.position);
  const { fate, length } = run.events[k];
  if (fate !== 'lost' && passedOn[k] < length && $('send').checked) {
    passedOn[k] = length;
    channels[receiver.draft]?.postMessage(arrivals[k].frame.slice(0, length));
  }
  return true;
}

/**
 * Takes the next frame that comes; lost ones before it pass by.
 * @returns {boolean} whether anything was taken
 */
function next() {
  const from = run.position;
  while (forward() && run.events[run.position - 1].fate === 'lost') { /* on */ }
  return run.position > from;
}

/** @param {number} place */
async function seek(place) {
  // Frames that are passed on are taken one by one.
  if (place < run.position || !$('send').checked) run.near(place);
  second?.goTo(run.position);
  await drive(forward, () => run.position >= place || run.atEnd, () => Infinity, '', place);
}

/** Takes the next frame that comes; from the place that a seek goes to, if one is going on. */
function step() {
  let place = job?.target;
  if (place !== undefined) {
    while (place < run.length && arrivals[place].lost) place++;
    return seek(Math.min(place + 1, run.length));
  }
  next();
  halt(happened());
}

/** Goes back to the frame that came before. */
function back() {
  let place = (job?.target ?? run.position) - 1;
  while (place > 0 && arrivals[place - 1].lost) place--;
  return seek(Math.max(0, place));
}

const toTheEnd = () => drive(forward, () => run.atEnd, () => Infinity, 'Going to the end.');

function play() {
  if (job !== null) return halt(happened());
  return drive(next, () => run.atEnd, () => Number($('pace').value), 'Playing.');
}

// ---- frames from files, lines and bundles

/** @param {(Node | string)[]} items */
const listFaults = (items) => $('faults').replaceChildren(...items);

/**
 * @param {string} name
 * @param {Uint8Array[]} frames
 * @param {Fault[]} [faults]
 */
async function use(name, frames, faults = []) {
  sent = frames;
  recorded = false;
  document.body.dataset.frames = frames.length > 0 ? 'some' : 'none';
  $('source').textContent = `${name}: ${many(frames.length, 'frame')}`;
  const left = faults.length - FAULTS;
  listFaults([
    ...faults.slice(0, FAULTS).map(({ line, words }) => make('li', '', `Line ${line} left out: ${words}`)),
    ...(left > 0 ? [make('li', '', `and ${many(left, 'line')} more`)] : []),
  ]);
  await restart();
}

/**
 * Takes the frames of a recording, which is draft 02: the desk is set to it.
 * @param {string} name
 * @param {Uint8Array[]} frames
 */
async function useRecording(name, frames) {
  const before = chosenDraft();
  $('draft').value = '02';
  await use(`Recording ${name}`, frames);
  recorded = true;
  if (before !== '02') say(`A recording is draft 02: the desk was set to draft ${before}, and is set to draft 02 now. ${happened()}`);
}

/**
 * The frames of a recording, or why it is none.
 * @param {Uint8Array} octets
 */
async function openRecording(octets) {
  try {
    return { frames: (await Recorder.create(module)).open(octets), words: '' };
  } catch (e) {
    if (!(e instanceof RefusalError)) throw e;
    return { frames: null, words: e.message };
  }
}

/**
 * Reads lines of hex in slices.
 * @param {string} text
 * @param {object} own the job
 * @returns {Promise<import('./frames.mjs').Hex | null>} null where the job was ended
 */
async function readLines(text, own) {
  const reading = readingHex(text);
  for (;;) {
    const from = performance.now();
    do {
      const turn = reading.next();
      if (turn.done) return turn.value;
      $('reading').value = turn.value / text.length;
    } while (performance.now() - from < SLICE);
    await rest(0);
    if (job !== own) return null;
  }
}

/**
 * Says why a file was not loaded; what was there before stays.
 * @param {string} words
 */
function refuseFile(words) {
  halt(words);
  listFaults([make('li', '', words)]);
}

/**
 * Takes a file of hex lines or a recording: which of both, its content says.
 * @param {string} name
 * @param {Uint8Array} octets
 * @param {object} own the job
 */
async function useFile(name, octets, own) {
  const recording = await openRecording(octets);
  if (job !== own) return;
  if (recording.frames !== null) return useRecording(name, recording.frames);
  const text = textOf(octets), hex = text === null ? null : await readLines(text, own);
  if (job !== own) return;
  if (hex !== null && (hex.frames.length > 0 || hex.faults.length === 0)) return use(`Hex lines ${name}`, hex.frames, hex.faults);
  const why = hex === null ? 'it is no text' : `line ${hex.faults[0].line}: ${hex.faults[0].words}`;
  refuseFile(`${name} was not loaded. It is no recording (${recording.words}), and no lines of hex (${why}).`);
}

/** @param {File} file */
async function openFile(file) {
  const own = begin(`Reading ${file.name}.`);
  $('seek').hidden = true;
  $('reading').hidden = false;
  $('reading').value = 0;
  try {
    await useFile(file.name, new Uint8Array(await file.arrayBuffer()), own);
  } catch (e) {
    refuseFile(`${file.name} could not be read: ${wordsOf(e)}`);
  }
}

/**
 * Takes a sample for two boards, to its end. Where there is no second board, there is one with another window then.
 * @param {'mixed' | 'late' | 'sequence'} kind
 * @param {string} name
 */
async function useWindowSample(kind, name) {
  if ($('second-window').value === '') $('second-window').value = $('first-window').value === '4' ? '16' : '4';
  await use(`Sample, ${name}`, await windowSample(kind, chosenDraft(), module));
  await toTheEnd();
}

/**
 * @param {string} name
 * @param {string} text
 */
function useText(name, text) {
  const { frames, faults } = readHex(text);
  return use(name, frames, faults);
}

async function cut() {
  try {
    const start = { frameSize: Number($('size').value), firstNumber: Number($('first').value), draft: chosenDraft() };
    const sender = await Sender.create(start, module);
    const texts = $('texts').value.split(/^---+\s*$/m).map((/** @type {string} */ text) => text.trim()).filter(Boolean);
    const frames = texts.flatMap((/** @type {string} */ text) => sender.send(new TextEncoder().encode(text)));
    const rest = sender.flush();
    if (rest !== null) frames.push(rest);
    await use('Bundles cut here', frames);
    say(`${many(texts.length, 'bundle')} cut into ${many(frames.length, 'frame')}.`);
  } catch (e) {
    if (!(e instanceof RefusalError || e instanceof RangeError)) throw e;
    halt(`Not cut. ${e.message}.`);
  }
}

/**
 * @param {string} name
 * @param {BlobPart} content
 */
function download(name, content) {
  const address = URL.createObjectURL(new Blob([content], { type: 'application/octet-stream' }));
  const anchor = /** @type {HTMLAnchorElement} */ (make('a', ''));
  anchor.href = address;
  anchor.download = name;
  anchor.click();
  setTimeout(() => URL.revokeObjectURL(address), 60000);
}

/** The frames that came, to download: as a recording; those of draft 00, as which no recording is played, as hex lines. */
async function save() {
  const came = arrivals.filter((arrival) => !arrival.lost).map((arrival) => arrival.frame);
  if (receiver.draft === '00') {
    download('frames-00.hex', `# draft 00\n${writeHex(came)}`);
    return say(`${many(came.length, 'frame')} of draft 00 saved as hex lines, since a recording is draft 02.`);
  }
  try {
    const recording = (await Recorder.create(module)).record(came);
    download('frames.recording', recording);
    say(`${many(came.length, 'frame')} saved as a recording of ${many(recording.length, 'octet')}.`);
  } catch (e) {
    if (!(e instanceof RefusalError)) throw e;
    say(`Not saved. ${many(came.length, 'frame')} came over the link; ${e.message}.`);
  }
}

// ---- the pictures

function draw() {
  drawPlace();
  drawMap();
  drawControls();
  drawStrip();
  drawWindows();
  drawBoard();
  drawBoards();
  drawCounts();
  drawnAt = performance.now();
}

function drawPlace() {
  const seek = $('seek');
  seek.max = run.length;
  seek.value = job?.target ?? run.position;
  seek.setAttribute('aria-valuetext', placeInWords());
  $('place').textContent = placeInWords();
}

/** What became of the frames, in the order in which one hides another where they share a column of the map. */
const MAPPED = { lost: '--edge', taken: '--blue', gave: '--green', refused: '--red' };

/** The whole run as a line of coloured columns above the seek bar. */
function drawMap() {
  const canvas = $('map'), width = canvas.clientWidth, { length, position, events, counts } = run, kinds = Object.keys(MAPPED);
  if (canvas.width !== width) canvas.width = width;
  const ranks = new Uint8Array(width), pen = canvas.getContext('2d'), style = getComputedStyle(document.documentElement);
  const column = (/** @type {number} */ k) => Math.floor((k * width) / length);
  for (let k = 0; k < position; k++) {
    const { fate, bundles } = events[k], rank = 1 + kinds.indexOf(fate === 'taken' && bundles.length > 0 ? 'gave' : fate);
    for (let x = column(k); x < Math.max(column(k + 1), column(k) + 1); x++) ranks[x] = Math.max(ranks[x], rank);
  }
  pen.clearRect(0, 0, width, canvas.height);
  Object.values(MAPPED).forEach((colour, kind) => {
    pen.fillStyle = style.getPropertyValue(colour);
    ranks.forEach((rank, x) => rank === kind + 1 && pen.fillRect(x, 0, 1, canvas.height));
  });
  const words = `${figure(counts.taken)} taken, ${figure(counts.refused)} refused, ${figure(counts.lost)} lost`;
  canvas.setAttribute('aria-label', `So far ${words}, ${many(counts.bundles, 'bundle')} handed out`);
}

function drawControls() {
  const going = job !== null;
  $('play').textContent = going ? 'Pause' : 'Play';
  $('play').classList.toggle('going', going);
  $('play').disabled = !going && run.atEnd;
  $('step').disabled = run.atEnd;
  $('end').disabled = run.atEnd;
  $('back').disabled = run.position === 0 || run.broken !== null;
  $('seek').disabled = run.length === 0 || run.broken !== null;
  $('save').disabled = run.length === 0;
  $('save').textContent = receiver.draft === '00' ? 'Save as hex lines' : 'Save as recording';
  for (const id of LINK.slice(0, 4)) {
    const unit = id === 'shuffle' ? ' places' : ' %';
    document.querySelector(`output[for="${id}"]`)?.replaceChildren(`${$(id).value}${unit}`);
  }
}

/**
 * The cells that are drawn.
 * @type {{ of: unknown, start: number, cells: HTMLElement[] }}
 */
let strip = { of: null, start: 0, cells: [] };

/** Where the page of the strip starts: the position lies in its middle half wherever there are enough frames. */
function stripStart() {
  const step = CELLS / 2, start = step * Math.max(0, Math.floor((run.position - step / 2) / step));
  return Math.max(0, Math.min(start, run.length - CELLS));
}

/** @param {number} k an arrival */
function stripCell(k) {
  const cell = make('span', '');
  cell.dataset.arrival = `${k}`;
  return cell;
}

/** @param {number} k an arrival */
function cellTitle(k) {
  const { frame, copy, damaged } = arrivals[k];
  return `${nameOf(k)}: ${many(frame.length, 'octet')}${copy ? ', second copy' : ''}${damaged ? ', damaged' : ''}`;
}

/** @param {number} k an arrival */
function cellKind(k) {
  const copy = arrivals[k].copy ? ' copy' : '', now = k === run.position - 1 ? ' now' : '';
  if (k >= run.position) return `f${copy}`;
  const { fate, bundles } = run.events[k];
  return `f${copy} ${fate}${bundles.length > 0 ? ' gave' : ''}${now}`;
}

function drawStrip() {
  const start = stripStart(), box = $('strip'), { length, counts, position } = run, end = Math.min(length, start + CELLS);
  if (strip.of !== arrivals || strip.start !== start) {
    strip = { of: arrivals, start, cells: Array.from({ length: end - start }, (_, n) => stripCell(start + n)) };
    box.replaceChildren(...strip.cells);
  }
  strip.cells.forEach((cell, n) => {
    const kind = cellKind(start + n);
    if (cell.className !== kind) cell.className = kind;
  });
  const words = `${figure(counts.taken)} taken, ${figure(counts.refused)} refused, ${figure(counts.lost)} lost`;
  box.setAttribute('aria-label', length === 0 ? 'No frames' : `${many(length, 'frame')}: ${words}, ${figure(length - position)} to come`);
  $('page').textContent = length > CELLS ? `${figure(start + 1)} to ${figure(end)} of ${figure(length)}` : '';
  showCell(box, strip.cells[position - 1 - start]);
}

/**
 * Scrolls a cell into its box, and nothing else.
 * @param {HTMLElement} box
 * @param {HTMLElement | undefined} cell
 */
function showCell(box, cell) {
  if (cell === undefined) return;
  const { offsetTop, offsetHeight } = cell, { scrollTop, clientHeight } = box;
  if (offsetTop < scrollTop || offsetTop + offsetHeight > scrollTop + clientHeight) box.scrollTop = offsetTop - clientHeight / 2;
}

/**
 * The pieces of an open transfer in the order in which they are joined, with the highest index that is known or held: in draft 02 they
 * rise to it, in draft 00 they fall from it.
 * @param {Row} row
 * @param {Set<string>} fresh
 */
function drawPieces({ row, last, pieces }, fresh) {
  const lengths = new Map(pieces.map(({ index, length }) => [index, length])), highest = last ?? Math.max(-1, ...lengths.keys());
  const wide = highest < 28, cells = make('div', wide ? 'cells wide' : 'cells'), missing = [], falling = receiver.draft === '00';
  const final = FINAL[receiver.draft], more = last === null ? [make('span', 'more', '…')] : [];
  for (let k = 0; k <= highest; k++) {
    const index = falling ? highest - k : k, length = lengths.get(index), here = length !== undefined;
    const kind = `${here ? 'have' : 'miss'}${fresh.has(`${row} ${index}`) ? ' new' : ''}${index === last ? ' last' : ''}`;
    const cell = make('span', `p ${kind}`, wide ? `${index}` : '');
    cell.title = here ? `piece ${index}${index === last ? `, the ${final}` : ''}: ${many(length, 'octet')}` : `piece ${index} is missing`;
    if (!here) missing.push(index);
    cells.append(cell);
  }
  if (falling) cells.prepend(...more);
  else cells.append(...more);
  const of = last === null ? `, the ${final} is not known` : ` of ${last + 1}`;
  const lacks = missing.length === 0 ? '' : `; missing ${missing.join(', ')}`;
  cells.setAttribute('role', 'img');
  cells.setAttribute('aria-label', `${many(lengths.size, 'piece')} here${of}${lacks}`);
  return cells;
}

/** @type {Record<string, string>} */
const PHASES = {
  free: 'nothing received',
  done: 'handed out',
  cancelled: 'cancelled by the sender',
  'given up': 'given up: its messages contradict each other or are too many',
};

/** @param {string} phase */
function drawPhase(phase) {
  const bar = make('div', `bar ${phase.replace(' ', '-')}`);
  bar.setAttribute('role', 'img');
  bar.setAttribute('aria-label', PHASES[phase]);
  return bar;
}

/**
 * @param {Row} row
 * @param {number | null} greatest
 * @param {Set<string>} fresh
 */
function drawRow(row, greatest, fresh) {
  const { number, phase, pieces } = row, line = make('tr', number !== null && number === greatest ? 'greatest' : '');
  const head = make('th', '', `${row.row}`), shownPhase = make('td', ''), picture = make('td', 'pieces');
  head.setAttribute('scope', 'row');
  if (line.className !== '') head.title = 'greatest number';
  shownPhase.append(make('span', `phase ${phase.replace(' ', '-')}`, phase));
  picture.append(phase === 'open' ? drawPieces(row, fresh) : drawPhase(phase));
  const octets = phase === 'open' ? figure(pieces.reduce((sum, { length }) => sum + length, 0)) : '';
  line.append(head, make('td', '', number === null ? '–' : `${number}`), shownPhase, picture, make('td', 'n', octets));
  return line;
}

/**
 * The window of a board's run.
 * @param {Run} board
 * @param {string} which the ending of the ids
 * @param {string} name of the board, where there are two
 */
function drawWindow(board, which, name) {
  const { greatest, rows } = board.window;
  const pieces = board.position === 0 ? [] : board.events[board.position - 1].pieces;
  const fresh = new Set(pieces.map(({ row, index }) => `${row} ${index}`));
  retitle(`h-window${which}`, name === '' ? `Window of ${rows.length} transfers` : `${name}: window of ${rows.length} transfers`);
  $(`greatest${which}`).textContent = greatest === null ? 'no transfer seen yet' : `greatest number ${greatest}`;
  $(`window${which}`).tBodies[0].replaceChildren(...rows.map((row) => drawRow(row, greatest, fresh)));
}

function drawWindows() {
  drawWindow(run, '', second === null ? '' : 'First board');
  if (second !== null) drawWindow(second, '-2', 'Second board');
  for (const word of document.querySelectorAll('.final')) word.textContent = FINAL[receiver.draft];
}

/**
 * @param {string} id of a heading
 * @param {string} title
 */
const retitle = (id, title) => $(id).querySelector('b').replaceChildren(title);

/**
 * What the panel of the board was drawn from.
 * @type {{ shown: unknown, station: string, time: string }}
 */
let board = { shown: null, station: '', time: '' };

/**
 * The stations that a timetable was received for; the one that was chosen stays, received or not.
 * @param {string} chosen
 */
function drawStations(chosen) {
  const received = run.shown.timetables.map((table) => table.station).filter(Boolean).sort();
  const names = ['', ...received, ...(chosen === '' || received.includes(chosen) ? [] : [chosen])], select = $('station');
  const drawn = [...select.options].map((option) => option.value);
  if (drawn.length === names.length && drawn.every((name, k) => name === names[k])) return;
  select.replaceChildren(...names.map((name) => new Option(name === '' ? 'last received' : name, name, false, name === chosen)));
}

function drawBoard() {
  const station = $('station').value, { shown } = run;
  const typed = $('time').value.trim(), good = /^([01]\d|2[0-3]):[0-5]\d$/.test(typed), time = good ? typed : board.time;
  $('time').setAttribute('aria-invalid', `${!good}`);
  $('board-at').textContent = run.position === 0 ? 'before the first frame' : `at frame ${figure(run.position)}`;
  if (board.shown === shown && board.station === station && board.time === time) return;
  board = { shown, station, time };
  drawStations(station);
  const table = tableOf(shown, station), departures = departuresFrom(table, time);
  $('departures').tBodies[0].replaceChildren(...departureRows(departures.slice(0, DEPARTURES)));
  $('departures').hidden = departures.length === 0;
  $('later').textContent = departuresInWords(table, departures.length, time);
  const notices = shown.notices.slice(-NOTICES).reverse();
  $('notices').replaceChildren(...notices.map((text) => make('li', '', text)));
}

/**
 * @param {import('./timetable.mjs').Timetable | undefined} table
 * @param {number} count
 * @param {string} time
 */
function departuresInWords(table, count, time) {
  if (table === undefined) return 'No timetable received yet.';
  const station = table.station || 'Without a station', edition = table.edition > 0 ? `, edition ${table.edition}` : '';
  const left = count - DEPARTURES;
  if (count === 0) return `${station}${edition}: no departures from ${time} on.`;
  return `${station}${edition}${left > 0 ? `, and ${many(left, 'departure')} later` : ''}.`;
}

/**
 * Items that are drawn, by what they stand for: those which stay are not made anew.
 * @type {Record<string, Map<object, HTMLElement>>}
 */
const items = { bundles: new Map(), 'bundles-2': new Map(), refused: new Map() };

/**
 * @template {object} T
 * @param {string} name
 * @param {T[]} list the newest first
 * @param {number} count of all
 * @param {(entry: T) => HTMLElement} item
 */
function drawList(name, list, count, item) {
  const before = items[name];
  items[name] = new Map(list.map((entry) => [entry, before.get(entry) ?? item(entry)]));
  const drawn = [...items[name].values()], box = $(name);
  if (drawn.length !== box.children.length || drawn[0] !== box.firstChild) box.replaceChildren(...drawn);
  $(`n-${name}`).textContent = figure(count);
  $(`more-${name}`).textContent = count > list.length ? `and ${figure(count - list.length)} more before these` : '';
}

/** The lists, and the comparison where there are two boards. */
function drawBoards() {
  const lacked = second === null ? null : lacking(run, second);
  for (const id of ['compare', 'second', 'second-handed']) $(id).hidden = second === null;
  retitle('h-board', second === null ? 'What the board shows' : 'What the first board shows');
  retitle('h-bundles', second === null ? 'Bundles handed out' : 'First board: bundles handed out');
  drawList('bundles', run.lastBundles(LISTED), run.counts.bundles, bundleItem);
  drawList('bundles-2', second?.lastBundles(LISTED) ?? [], second?.counts.bundles ?? 0, bundleItem);
  markOnly('bundles', lacked?.[1] ?? [], 'not on the second board');
  markOnly('bundles-2', lacked?.[0] ?? [], 'not on the first board');
  drawList('refused', run.lastRefused(LISTED), run.counts.refused, refusedItem);
  if (run.counts.lost > 0) $('n-refused').append(`, and ${figure(run.counts.lost)} lost on the link`);
  if (second !== null && lacked !== null) drawComparison(run, second, lacked, goButton);
}

/**
 * Marks the bundles of a list that the other board lacks.
 * @param {string} name
 * @param {object[]} lacked
 * @param {string} words
 */
function markOnly(name, lacked, words) {
  const only = new Set(lacked);
  for (const [entry, item] of items[name]) item.querySelector('.only')?.replaceChildren(only.has(entry) ? words : '');
}

/**
 * The first line of an item: what it is, more about it, and a button that goes to its frame.
 * @param {string} what
 * @param {string} more
 * @param {number} arrival
 */
function itemTop(what, more, arrival) {
  const top = make('div', 'top'), go = goButton(`Frame ${figure(arrival + 1)}`, arrival);
  go.setAttribute('aria-label', `Go to frame ${arrival + 1}`);
  top.append(make('span', 'what', what), make('span', 'meta', more), make('span', 'only'), go);
  return top;
}

/**
 * A button that goes to a frame.
 * @param {string} text
 * @param {number} arrival
 */
function goButton(text, arrival) {
  const go = make('button', 'go', text);
  go.setAttribute('type', 'button');
  go.addEventListener('click', () => attempt(() => seek(arrival + 1)));
  return go;
}

const SHORT = 160;

/** @param {{ arrival: number, bundle: import('./btpu.mjs').Bundle }} entry */
function bundleItem({ arrival, bundle: { number, octets } }) {
  const item = make('li', ''), text = textOf(octets) ?? hexOf(octets, ' ');
  const short = text.length > SHORT ? `${text.slice(0, SHORT).trimEnd()} …` : text || '(empty)';
  const what = number === null ? 'Whole, in one message' : `Transfer ${number}`;
  item.append(itemTop(what, many(octets.length, 'octet'), arrival), make('pre', '', short));
  if (text.length > SHORT) {
    const all = make('details', '');
    all.append(make('summary', '', 'All of it'), make('pre', '', text));
    item.append(all);
  }
  Object.assign(item.dataset, { number: `${number ?? '-'}`, octets: hexOf(octets), frame: `${arrival}` });
  return item;
}

/** @param {{ arrival: number, refusal: import('./btpu.mjs').Refusal }} entry */
function refusedItem({ arrival, refusal: { number, place, words } }) {
  const item = make('li', ''), octets = make('pre', ''), { frame } = arrivals[arrival];
  const part = (/** @type {number} */ from, /** @type {number} */ to) => hexOf(frame.subarray(from, to), ' ');
  if (place === null) {
    octets.append(`${part(0, 24)}${frame.length > 24 ? ' …' : ''}` || '(no octets)');
  } else {
    const from = Math.max(0, place - 8), before = part(from, place), header = place + 4;
    octets.append(`${from > 0 ? '… ' : ''}${before}${before === '' ? '' : ' '}`, make('mark', '', part(place, header)));
    if (header < frame.length) octets.append(` ${part(header, header + 16)}${header + 16 < frame.length ? ' …' : ''}`);
  }
  const where = place === null ? '' : `, message at octet ${place}`;
  item.append(itemTop(`${nameOf(arrival)}: ${words}`, `refusal ${number}${where}`, arrival), octets);
  Object.assign(item.dataset, { number: `${number}`, place: `${place ?? '-'}`, frame: `${arrival}` });
  return item;
}

function drawCounts() {
  const { taken, refused, lost, copies, bundles, octets, messages, passed, dropped } = run.counts;
  const link = { Sent: sent.length, Lost: lost, 'Second copies': copies, Taken: taken, Refused: refused };
  const window = { 'Messages too far behind': passed, 'Dropped half-received': dropped };
  const entries = Object.entries({ ...link, Messages: messages, ...window, Bundles: bundles, 'Octets of bundles': octets });
  $('counts').replaceChildren(...entries.flatMap(([name, count]) => [make('dt', '', name), make('dd', '', figure(count))]));
}

// ---- controls

/**
 * Does what a control asks for, and says it where that fails.
 * @param {() => unknown} action
 */
async function attempt(action) {
  try {
    await action();
  } catch (e) {
    console.error(e);
    halt(`That did not work: ${wordsOf(e)}`);
  }
}

/**
 * @param {string} id
 * @param {string} event
 * @param {() => unknown} action
 */
const on = (id, event, action) => $(id).addEventListener(event, () => attempt(action));

function listen() {
  on('restart', 'click', restart);
  on('back', 'click', back);
  on('step', 'click', step);
  on('play', 'click', play);
  on('end', 'click', toTheEnd);
  on('seek', 'input', () => seek(Number($('seek').value)));
  on('draft', 'change', changeDraft);
  on('first-window', 'change', changeWindows);
  on('second-window', 'change', changeWindows);
  on('limit', 'change', changeLimit);
  on('station', 'change', drawBoard);
  on('time', 'input', drawBoard);
  on('sample', 'click', async () => useText('Sample', await sampleOf(chosenDraft())));
  on('mixed', 'click', () => useWindowSample('mixed', 'mixed transfers'));
  on('late', 'click', () => useWindowSample('late', 'late repetition'));
  on('sequence', 'click', () => useWindowSample('sequence', 'transfers in sequence'));
  on('paste', 'click', () => useText('Pasted lines', $('lines').value));
  on('cut', 'click', cut);
  on('save', 'click', save);
  for (const id of LINK) on(id, 'input', restart);
  on('file', 'change', () => {
    const [file] = $('file').files;
    if (file !== undefined) return openFile(file);
  });
}

/** The frames of the strip: a click goes there, and what a frame is stands under the pointer. */
function listenToStrip() {
  $('strip').addEventListener('click', (/** @type {MouseEvent} */ { target }) => {
    const { arrival } = /** @type {HTMLElement} */ (target).dataset;
    if (arrival !== undefined) attempt(() => seek(Number(arrival) + 1));
  });
  $('strip').addEventListener('pointerover', (/** @type {PointerEvent} */ { target }) => {
    const cell = /** @type {HTMLElement} */ (target), { arrival } = cell.dataset;
    if (arrival !== undefined) cell.title = cellTitle(Number(arrival));
  });
}

/** @type {Record<string, string>} */
const KEYS = { ArrowRight: 'step', ArrowLeft: 'back', Home: 'restart', End: 'end', ' ': 'play' };

function listenToKeys() {
  addEventListener('keydown', (event) => {
    const { tagName } = /** @type {HTMLElement} */ (event.target), id = KEYS[event.key];
    if (id === undefined || event.ctrlKey || event.metaKey || event.altKey || /^(INPUT|TEXTAREA|SELECT|SUMMARY)$/.test(tagName)) return;
    if (event.key === ' ' && tagName === 'BUTTON') return;
    $(id).click();
    event.preventDefault();
  });
}

/** A file may be dropped anywhere on the page. */
function listenToDrops() {
  addEventListener('dragover', (event) => event.preventDefault());
  addEventListener('drop', (event) => {
    event.preventDefault();
    const file = event.dataTransfer?.files[0];
    if (file !== undefined) openFile(file);
  });
}

try {
  module = await load(await fileBeside('btpu.wasm'));
  try {
    for (const draft of /** @type {const} */ (['00', '02'])) channels[draft] = new BroadcastChannel(nameIn('btpu-frames', draft));
  } catch { /* no board to pass frames to */ }
  listen();
  listenToStrip();
  listenToKeys();
  listenToDrops();
  addEventListener('resize', drawMap);
  await restart();
  document.body.dataset.ready = 'yes';
} catch (e) {
  say(`The desk does not work: ${wordsOf(e)}`);
  document.body.dataset.ready = 'failed';
}
