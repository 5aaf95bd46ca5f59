// Operations for a test, from a seed: frames for a receiver with wrong lengths, wrong places and images that are not sound; for
// bursts, for a sender and for recordings likewise.
import { ARENA, at, FUNCTIONS, NEAR, NONE, OP, RECEIVE, room, WINDOW } from './arena.mjs';
import { piece, pieceIn } from './common.mjs';
import { be16, be32, damaged, GREATEST, Random, randomFrame, someFrames, traffic } from './random-frames.mjs';
import { freeRow, soundRow, UNSOUND } from './random-rows.mjs';

/** A file of operations, as arena.mjs says. */
class Operations {
  #octets = new Uint8Array(1 << 22);
  #end = 0;
  frames = 0;

  constructor() {
    for (const n of [ARENA, NEAR, at.result]) this.#number(n, 4);
  }

  #reserve(n) {
    if (this.#end + n <= this.#octets.length) return;
    const longer = new Uint8Array(2 * this.#octets.length + n);
    longer.set(this.#octets);
    this.#octets = longer;
  }

  #number(n, size) {
    this.#reserve(size);
    let rest = BigInt(n);
    for (let k = 0; k < size; k++, rest >>= 8n) this.#octets[this.#end++] = Number(rest & 255n);
  }

  #call(operation, name, words) {
    const which = FUNCTIONS.findIndex(([known]) => known === `btpu_${name}`);
    this.#number(operation, 1);
    this.#number(which, 1);
    this.#number(words.length, 1);
    for (const word of words) this.#number(word, 8);
    if (which === RECEIVE) this.frames++;
  }

  call(name, ...words) {
    this.#call(OP.call, name, words);
  }

  whole(name, ...words) {
    this.#call(OP.whole, name, words);
  }

  put(offset, octets) {
    this.#number(OP.put, 1);
    this.#number(offset, 4);
    this.#number(octets.length, 4);
    this.#reserve(octets.length);
    this.#octets.set(octets, this.#end);
    this.#end += octets.length;
  }

  fill(offset, length, octet) {
    this.#number(OP.fill, 1);
    this.#number(offset, 4);
    this.#number(length, 4);
    this.#number(octet, 1);
  }

  turn(offset, bits, operation = OP.turn) {
    this.#number(operation, 1);
    this.#number(offset, 4);
    this.#number(bits, 1);
  }

  section(which) {
    this.#number(OP.section, 1);
    this.#number(which, 1);
  }

  get octets() {
    return this.#octets.subarray(0, this.#end);
  }
}

/** Added to a good length: its lower 32 bits stay good, and it is not. */
const BEYOND = 1n << 32n;

/** A part and its length; without a pointer at times where the length is 0. */
const orNone = (r, name, length) => [length === 0 && r.once(2) ? NONE : at[name], length];

// ---- receiver

const WINDOWS = [4, 8, 16];
/** The pool of a receiver with this window. */
const poolOf = (window) => 4096 * window;

/** A pool of another length: by a little, of another window, and beyond 32 bits. */
function wrongPool(r, window) {
  const right = poolOf(window), others = WINDOWS.filter((other) => other !== window).map(poolOf);
  return r.pick([0, right - 1, right + 1, right + 128, ...others, BEYOND + BigInt(right)]);
}

/** A call from any place, with wrong lengths at times. */
function wrongReceive(r, o, { window }, frame) {
  const pool = r.once(6) ? wrongPool(r, window) : poolOf(window);
  const output = r.once(4) ? r.pick([0, 1, 4095, r.below(4096)]) : 4096 + r.below(128);
  const length = r.once(10) ? BEYOND + BigInt(frame.length) : frame.length;
  const far = r.pick([BEYOND, 2n ** 64n - 1n, BEYOND + BigInt(frame.length)]);
  const place = r.once(3) ? 0 : r.once(8) ? far : r.below(frame.length + 3);
  o.call('receive', at.state, ...orNone(r, 'pool', pool), ...orNone(r, 'frame', length), place, ...orNone(r, 'output', output), at.result);
}

function receiveFrame(r, o, run, frame) {
  o.fill(at.output, room.output, r.next() & 255);
  o.put(at.frame, frame);
  if (r.once(12)) wrongReceive(r, o, run, frame);
  if (r.once(20)) return;
  o.whole('receive', at.state, at.pool, poolOf(run.window), at.frame, frame.length, 0, at.output, 4096, at.result);
}

/** Where a bit of a receiver's image is turned: anywhere, or where a row starts. */
function turnedInImage(r) {
  const offset = r.once(2) ? r.below(3144) : r.once(8) ? r.below(8) : 8 + 196 * r.below(16) + r.below(12);
  return [at.state + offset, 1 << r.below(8)];
}

/** Checks of the image with a row that is not sound, or stands beyond the window. */
function checkUnsound(r, o, rows) {
  for (let n = 0; n < 12; n++) {
    const k = r.below(16), offset = at.state + 8 + 196 * k;
    // A sound row is none in its place beyond the window, unless it is free.
    o.put(offset, r.once(4) ? soundRow(r) : r.pick(UNSOUND)(r, 1 + r.below(r.pick([4, 16, 64]))));
    o.call('receiver_check', at.state);
    o.put(offset, rows[k]);
  }
}

/** Checks of the image, and calls, with another octet in place of the window: of no window, and of another one. */
function otherWindows(r, o, { window }) {
  for (const octet of [0, 1, 5, 9, 15, 17, 32, 255, ...WINDOWS.filter((other) => other !== window)]) {
    o.put(at.state + WINDOW, [octet]);
    o.call('receiver_check', at.state);
    o.call('receive', at.state, at.pool, poolOf(window), at.frame, 1, 0, at.output, 4096, at.result); // the pool is not of the other
  }
  o.put(at.state + WINDOW, [window]);
}

/** Checks of the image with a bit turned. */
function turnedImages(r, o) {
  for (let n = 0; n < 24; n++) {
    const [offset, bits] = turnedInImage(r);
    o.turn(offset, bits);
    o.call('receiver_check', at.state);
    o.turn(offset, bits);
  }
}

/** Starts the receiver; with no window before, at times. */
function callStart(r, o, { draft, window }) {
  const start = draft === '00' ? 'receiver_start_00' : 'receiver_start_window';
  if (r.once(3)) o.call(start, at.state, r.pick([0, 1, 2, 3, 5, 7, 9, 12, 15, 17, 32, 64, 255, 260, 0x80000008, 0xffffffff, (r.next() & ~31) >>> 0]));
  if (draft === '02' && window === 8 && r.once(2)) o.call('receiver_start', at.state);
  else o.call(start, at.state, window);
}

function startReceiver(r, o, run) {
  o.fill(at.pool, room.pool, r.next() & 255);
  o.put(at.pool, r.octets(4096));
  o.fill(at.state, room.state, r.next() & 255);
  o.call('receiver_check', at.state);
  callStart(r, o, run);
  o.call('receiver_check', at.state);
  if (r.once(2)) return;
  const rows = Array.from({ length: 16 }, (_, k) => (k < run.window ? soundRow(r) : freeRow));
  o.put(at.state, [1, run.window, run.draft === '00' ? 1 : 0, 0, ...be32(run.base), ...rows.flat()]);
  o.call('receiver_check', at.state);
  checkUnsound(r, o, rows);
  otherWindows(r, o, run);
}

function receiving(r, o, run, frames) {
  startReceiver(r, o, run);
  for (const made of frames) {
    const frame = (r.once(4) ? damaged(r, made) : made).slice(0, room.frame);
    const turned = r.once(20) ? turnedInImage(r) : null;
    if (turned !== null) {
      o.turn(...turned);
      o.call('receiver_check', at.state);
    }
    receiveFrame(r, o, run, frame);
    if (turned !== null) o.turn(...turned, OP.turnBack);
  }
  turnedImages(r, o);
}

// ---- sender

function startSender(r, o, run, size) {
  const start = `sender_start${run.draft === '00' ? '_00' : ''}`;
  const first = r.once(3) ? 0xffffffff - r.below(4) : r.next();
  o.fill(at.senderState, room.senderState, r.next() & 255);
  o.call('sender_check', at.senderState);
  if (r.once(6)) o.call(start, at.senderState, r.pick([0, 127, 2049, 65536 + size, BEYOND + BigInt(size)]), first);
  o.call(start, at.senderState, size, first);
}

/** A call of one of the three functions, with wrong lengths at times. */
function send(r, o, name, size, bundle) {
  const wrong = r.pick([0, 1, size - 1, size + 1, r.below(2176), BEYOND + BigInt(size)]);
  const length = r.once(30) ? wrong : size;
  const frame = orNone(r, 'senderFrame', length);
  if (name !== 'place') return o.call(name, at.senderState, ...frame, at.result);
  const other = r.pick([0, r.below(bundle.length + 1), 4097, 4096 + 128, BEYOND + BigInt(bundle.length)]);
  const octets = r.once(30) ? other : bundle.length;
  return o.call('place', at.senderState, ...orNone(r, 'bundle', octets), ...frame, at.result);
}

function turnedSend(r, o, name, size, bundle) {
  const turned = [at.senderState + r.below(24), 1 << r.below(8)];
  o.turn(...turned);
  if (r.once(2)) o.call('sender_check', at.senderState);
  send(r, o, name, size, bundle);
  o.turn(...turned, OP.turnBack);
}

/** The length of a bundle whose pieces fill whole frames, from an empty one on. */
const evenLength = (r, size) => (size - 12) * (2 + r.below(Math.floor(4096 / (size - 12)) - 1));

function sendBundle(r, o, size) {
  const even = r.once(4);
  if (even) send(r, o, 'flush', size, []);
  const any = r.once(12) ? r.pick([0, 1, 4096, 4097]) : r.below(r.once(2) ? 300 : 4096);
  const length = even ? evenLength(r, size) : any;
  const bundle = r.octets(length), stopped = r.once(6);
  const enough = 1 + Math.ceil(length / (size - 12)) + r.below(2);
  o.put(at.bundle, bundle);
  for (let n = stopped ? 1 + r.below(enough) : enough; n > 0; n--) {
    if (r.once(10)) turnedSend(r, o, 'place', size, bundle);
    send(r, o, 'place', size, bundle);
  }
  if (stopped) send(r, o, 'cancel', size, bundle);
  if (r.once(4)) send(r, o, r.pick(['cancel', 'flush', 'flush']), size, bundle);
  for (let n = r.below(3); n > 0; n--) turnedSend(r, o, r.pick(['place', 'cancel', 'flush']), size, bundle);
}

function sending(r, o, run) {
  const size = r.once(6) ? r.pick([128, 129, 2047, 2048]) : 128 + r.below(r.once(2) ? 200 : 1921);
  o.put(at.senderFrame, r.octets(64));
  startSender(r, o, run, size);
  for (let n = 0; n < 5; n++) sendBundle(r, o, size);
  send(r, o, 'flush', size, []);
  send(r, o, 'flush', size, []);
  o.call('sender_check', at.senderState);
}

// ---- recordings

const MOST_FRAMES = 1024;
const MOST_OCTETS = 61440;

/** Frames for recordings of each kind. */
const RECORDED = [
  (r, run) => someFrames(r, run, r.below(12)),
  (r, run) => traffic(r, run, 1 + r.below(5)).map((frame) => (r.once(6) ? damaged(r, frame) : frame)),
  (r, run) => Array.from({ length: 12 }, () => damaged(r, randomFrame(r, run))),
  (r, run) => [...GREATEST.map((make) => make(r, run)), randomFrame(r, run)],
  (r, run) => Array.from({ length: MOST_FRAMES }, (_, k) => piece(k % 4 === 3, run.base + (k >> 2), k % 4, r.octets(r.below(48)))),
  () => Array(30).fill(Array(512).fill([2, 0, 0, 0]).flat()), // the most bundles
  (r) => Array.from({ length: MOST_FRAMES }, () => [1 + r.below(9), ...r.octets(r.below(4))]), // most are refused
  () => [],
];

/** Frames for a recording, within the limits. */
function recordedFrames(r, run, make) {
  let octets = 0;
  return make(r, run).filter((frame) => {
    if (frame.length === 0 || frame.length > 2048 || octets + frame.length > MOST_OCTETS) return false;
    octets += frame.length;
    return true;
  }).slice(0, MOST_FRAMES);
}

const le16 = (n) => [n & 255, n >> 8];

function record(r, o, frames, octets, output) {
  o.call('record', ...orNone(r, 'sizes', frames), ...orNone(r, 'octets', octets), ...orNone(r, 'recording', output), at.result);
}

/** Calls of btpu_record that are refused. */
function wrongRecords(r, o, sizes, octets) {
  const whole = 8 + 2 * sizes.length + octets;
  if (r.once(3)) record(r, o, sizes.length, octets, r.pick([0, 1, whole - 1, r.below(whole)]));
  if (r.once(6)) record(r, o, sizes.length, r.pick([octets + 1, Math.max(octets, 1) - 1, MOST_OCTETS + 1, BEYOND + BigInt(octets)]), whole);
  if (r.once(6)) record(r, o, r.pick([MOST_FRAMES + 1, BEYOND + BigInt(sizes.length)]), octets, whole);
  if (sizes.length > 0 && r.once(4)) {
    const k = r.below(sizes.length);
    o.put(at.sizes + 2 * k, le16(r.pick([0, 2049, 65535, sizes[k] ^ (1 << r.below(16))])));
    record(r, o, sizes.length, octets, whole);
    o.put(at.sizes + 2 * k, le16(sizes[k]));
  }
}

function open(r, o, length) {
  o.fill(at.sizes, room.sizes, r.next() & 255);
  o.call('recording_open', ...orNone(r, 'recording', length), at.sizes, at.result);
}

/** So many entries as are asked for or, once in so many times, others. */
function entries(r, name, asked, wrong) {
  const other = r.pick([0, asked - 1, asked + 1 + r.below(30), r.below(asked), BEYOND + BigInt(asked) - 1n]);
  return orNone(r, name, r.once(wrong) ? other : asked);
}

function play(r, o, length, messages) {
  const limit = r.pick([0, 1, r.below(messages + 2), r.below(40), messages, BEYOND + 1n, 2n ** 64n - 1n, 2n ** 64n - 1n]);
  const wrong = r.once(3) ? 6 : Infinity;
  const pool = r.once(wrong) ? wrongPool(r, 16) : poolOf(16);
  o.fill(at.playOutput, room.playOutput, r.next() & 255);
  for (const name of ['lengths', 'places', 'reasons']) o.fill(at[name], room[name], r.next() & 255);
  o.call('play', ...orNone(r, 'recording', length), limit, ...orNone(r, 'pool', pool),
    ...entries(r, 'playOutput', MOST_OCTETS, wrong), ...entries(r, 'lengths', 15360, wrong),
    ...entries(r, 'places', MOST_FRAMES, wrong), ...entries(r, 'reasons', MOST_FRAMES, wrong), at.result);
}

/** A recording of another length, or with bits turned in its counts, its lengths or its frames. */
function damagedRecording(r, o, frames, length) {
  const second = 4 + 2 * frames;
  const offset = r.pick([r.below(4), second + r.below(4), 4 + r.below(2 * frames + 4), r.below(length)]);
  const other = r.pick([0, 3, r.below(length), length - 1, second, length + 1 + r.below(100), BEYOND + BigInt(length)]);
  const turned = r.once(3) ? 0 : 1 << r.below(8);
  const lent = turned === 0 || r.once(4) ? other : length;
  o.turn(at.recording + offset, turned);
  open(r, o, lent);
  play(r, o, lent, 100);
  o.turn(at.recording + offset, turned);
}

/** Counts and lengths just beyond the limits. */
function beyondLimits(r, o, sizes, octets, length) {
  const k = r.below(Math.max(1, sizes.length)), second = 4 + 2 * sizes.length;
  const [offset, wrong, right] = r.pick([
    [0, be32(r.pick([MOST_FRAMES, MOST_FRAMES + 1, 0xffffffff])), be32(sizes.length)],
    [second, be32(r.pick([octets + 1, MOST_OCTETS, MOST_OCTETS + 1, 0xffffffff])), be32(octets)],
    ...(sizes.length > 0 ? [[4 + 2 * k, be16(r.pick([0, 2049, 65535])), be16(sizes[k])]] : []),
  ]);
  o.put(at.recording + offset, wrong);
  open(r, o, length);
  play(r, o, length, 100);
  o.put(at.recording + offset, right);
}

function recordings(r, o, run, make) {
  const frames = recordedFrames(r, run, make), sizes = frames.map((frame) => frame.length), octets = frames.flatMap((frame) => [...frame]);
  const whole = 8 + 2 * sizes.length + octets.length;
  o.fill(at.recording, room.recording, r.next() & 255);
  o.put(at.octets, octets);
  o.put(at.sizes, sizes.flatMap(le16));
  wrongRecords(r, o, sizes, octets.length);
  record(r, o, sizes.length, octets.length, whole + (r.once(2) ? r.below(100) : 0));
  open(r, o, whole);
  play(r, o, whole, octets.length >> 2);
  if (r.once(2)) play(r, o, whole, octets.length >> 4);
  for (let n = r.below(3); n > 0; n--) damagedRecording(r, o, sizes.length, whole);
  beyondLimits(r, o, sizes, octets.length, whole);
}

// ---- bursts

const MOST_IN_BURST = 64;
const SHORTEST_OUTPUT = 4096;

/** So many frames: none, few, many, as many as a burst may have at most, and more. */
const burstCount = (r) => (r.once(2) ? r.below(MOST_IN_BURST + 3) : r.pick([0, 1, 2, MOST_IN_BURST - 1, MOST_IN_BURST, MOST_IN_BURST]));
const many = (r, make) => Array.from({ length: burstCount(r) }, (_, k) => make(k));
const someDamaged = (r, frames) => frames.map((frame) => (r.once(5) ? damaged(r, frame) : frame));

/** Frames that are refused with 3, 4, 6, 7 and 8. */
const MALFORMED = [[], [3, 0, 0], [2, 0, 0, 4, 65], [2, 128, 0, 1, 2], [5, 0, 0, 3, 0, 0, 0]];

/** Frames for bursts of each kind. */
const BURSTS = [
  (r, run) => someDamaged(r, someFrames(r, run, burstCount(r))),
  (r, run) => someDamaged(r, traffic(r, run, 1 + r.below(12))),
  (r, run) => many(r, () => (r.once(3) ? r.pick([...MALFORMED, [0], r.octets(r.below(12))]) : damaged(r, randomFrame(r, run)))),
  (r, run) => [...MALFORMED, ...GREATEST.map((make) => make(r, run)), randomFrame(r, run)], // the most stack; one that is too long
  (r, run) => many(r, (k) => pieceIn(run.draft, run.base + (k >> 1), k % 2, 2, r.octets(2000 + r.below(37)))), // the output fills
  (r) => Array.from({ length: 1 + r.below(4) }, () => Array(r.pick([64, 255, 256, 257, 512])).fill([2, 0, 0, 0]).flat()), // the lists fill
  (r) => many(r, () => [1 + r.below(9), ...r.octets(r.below(4))]), // most are refused
  (r) => many(r, () => Array(r.pick([2048, 2048, 1 + r.below(40)])).fill(0)), // padding, and the most octets
];

/** As many of the frames as there is room for. */
function burstFrames(r, run, make) {
  let octets = 0;
  return make(r, run).slice(0, MOST_IN_BURST + 2).filter((frame) => {
    if (octets + frame.length > room.burstOctets) return false;
    octets += frame.length;
    return true;
  });
}

/** Where a message of the frame starts, as far as its lengths tell, or the frame's end. */
function messageStart(r, frame) {
  const starts = [0];
  for (let k = 0; k < frame.length;) {
    k += frame[k] === 0 ? 1 : 4 + (((frame[k + 1] & 15) << 16) | (frame[k + 2] << 8) | frame[k + 3]);
    if (k <= frame.length) starts.push(k);
  }
  return r.pick(starts);
}

/** A frame and a place in it to go on from: good ones and others, at the count of frames and above. */
function burstStart(r, frames) {
  const far = r.pick([BEYOND, 2n ** 64n - 1n, 2n ** 63n]);
  if (frames.length === 0 || r.once(5)) return [frames.length, r.pick([0, 0, 1, far])];
  const k = r.below(frames.length), above = frames.length + 1;
  if (r.once(6)) return [r.pick([above, above + r.below(100), far, BEYOND + BigInt(above - 1)]), r.pick([0, 0, 1])];
  return [k, r.once(2) ? messageStart(r, frames[k]) : r.once(8) ? far : r.below(frames[k].length + 3)];
}

/** Words of a call. */
function burstWords(r, { pool, count, octets, start = [0, 0], output }) {
  return [at.state, ...orNone(r, 'pool', pool), ...orNone(r, 'burstSizes', count), ...orNone(r, 'burstOctets', octets), ...start,
    ...orNone(r, 'burstOutput', output), at.burstLengths, at.burstNumbers, at.burstPlaces, at.burstReasons, at.result];
}

/** An output that is long enough; the shortest one, which one bundle fills, is seldom, since it takes many calls. */
function burstOutput(r) {
  if (r.once(4)) return SHORTEST_OUTPUT + r.below(3);
  return r.pick([2 * SHORTEST_OUTPUT, 65536, 65536 + r.below(128), SHORTEST_OUTPUT + r.below(61440)]);
}

/** Calls with one thing wrong or, at times, more. */
function wrongBursts(r, o, { window }, frames, right) {
  const n = right.count, sum = right.octets;
  const wrong = [
    () => ({ pool: wrongPool(r, window) }),
    () => ({ output: r.pick([0, 1, SHORTEST_OUTPUT - 1, r.below(SHORTEST_OUTPUT)]) }),
    () => ({ count: r.pick([MOST_IN_BURST + 1, MOST_IN_BURST + 2, BEYOND + BigInt(n), 2n ** 64n - 1n]) }),
    () => ({ count: r.pick([n + 1, Math.max(n, 1) - 1]) }),
    () => ({ octets: r.pick([sum + 1, Math.max(sum, 1) - 1, 0, r.below(131072), BEYOND + BigInt(sum), 2n ** 64n - 1n]) }),
    () => ({ start: burstStart(r, frames) }),
    () => ({ start: burstStart(r, frames) }),
  ];
  for (let calls = 3; calls > 0; calls--) {
    const given = { ...right, output: burstOutput(r), ...r.pick(wrong)(), ...(r.once(4) ? r.pick(wrong)() : {}) };
    const unsound = r.once(5), bits = r.once(2) ? [at.state, 2] : turnedInImage(r); // with the first, the image is never sound
    if (unsound) o.turn(...bits);
    o.call('receive_burst', ...burstWords(r, given));
    if (unsound) o.turn(...bits, OP.turnBack);
  }
}

function bursts(r, o, run, make) {
  const frames = burstFrames(r, run, make).map((frame) => [...frame]), octets = frames.flat();
  const right = { pool: poolOf(run.window), count: frames.length, octets: octets.length };
  for (const name of ['burstOutput', 'burstLengths', 'burstNumbers', 'burstPlaces', 'burstReasons']) {
    o.fill(at[name], room[name], r.next() & 255);
  }
  o.put(at.burstSizes, frames.flatMap((frame) => le16(frame.length)));
  o.put(at.burstOctets, octets);
  wrongBursts(r, o, run, frames, right);
  o.whole('receive_burst', ...burstWords(r, { ...right, output: burstOutput(r) }));
  if (r.once(2)) o.whole('receive_burst', ...burstWords(r, { ...right, output: 65536, start: burstStart(r, frames) }));
}

/**
 * Operations with at least so many frames for a receiver. All kinds are gone through in draft 02, then in draft 00, and so on, with each
 * window in turn.
 */
export function generate(seed, frames) {
  const r = new Random(seed), o = new Operations(), kinds = RECORDED.length;
  o.put(0, r.octets(ARENA));
  for (let k = 0; o.frames < frames || k < 2 * kinds; k++) {
    const base = r.once(4) ? (0xfffffff8 + r.below(16)) >>> 0 : r.next();
    const run = { base, manner: k % 4, draft: Math.floor(k / kinds) % 2 === 0 ? '02' : '00', window: WINDOWS[k % 3] };
    o.section(0);
    receiving(r, o, run, k === 0 ? GREATEST.map((make) => make(r, run)) : someFrames(r, run, 40));
    o.section(2);
    bursts(r, o, run, BURSTS[k % BURSTS.length]);
    o.section(0);
    sending(r, o, run);
    o.section(1);
    recordings(r, o, run, RECORDED[k] ?? (r.once(6) ? r.pick(RECORDED) : r.pick(RECORDED.slice(0, 3))));
  }
  return o.octets;
}
