// The workloads, as data for the native program and for WebAssembly, and how a module is timed on one. For node and browsers.

import { withRoom } from '../test/compare.mjs';

export const RECEIVE = 0, PLACE = 1, PLAY = 2, BURST = 3;
/** The window of the receivers: that of all before others could be chosen, so that figures stay comparable. */
export const WINDOW = 16;
const POOL = 4096n * BigInt(WINDOW);
const BURST_OUTPUT = 65536;
/** The most octets that a workload lends. */
const LENT = 300000;
const READY = 2;
const BEGUN = 8;

const be32 = (x) => [x >>> 24, (x >>> 16) & 255, (x >>> 8) & 255, x & 255];
const message = (type, content) => [type, 0, content.length >> 8, content.length & 255, ...content];
const piece = (end, number, index, data) => message(end ? 4 : 3, [...be32(number), ...be32(index), ...data]);
const some = (length, seed) => Array.from({ length }, (_, k) => (k * 37 + seed * 11) & 255);
const times = (length, make) => Array.from({ length }, (_, k) => make(k));

/** Messages in frames of at most 2,048 octets. */
function framesOf(messages) {
  const frames = [[]];
  for (const m of messages) {
    if (frames.at(-1).length + m.length > 2048) frames.push([]);
    frames.at(-1).push(...m);
  }
  return frames.map((frame) => Uint8Array.from(frame));
}

/** Pieces of 4 octets: 8 transfers at a time, 40 pieces of each, in turn. */
function mixed() {
  const list = [];
  for (let group = 0; group < 4; group++) {
    for (let index = 0; index < 40; index++) {
      for (let k = 0; k < 8; k++) list.push(piece(index === 39, 8 * group + k, index, some(4, k)));
    }
  }
  return framesOf(list);
}

const longPiece = (k) => piece(k % 2 === 1, k >> 1, k % 2, some(2036, k));
const timetable = (k) => piece(k % 3 === 2, Math.floor(k / 3), k % 3, some(k % 3 === 2 ? 212 : 244, k));

/** A recording of frames of 128 octets: bundles of 464 octets in four pieces. */
function recording(count) {
  const frames = times(count, (k) => piece(k % 4 === 3, k >> 2, k % 4, some(116, k)));
  const sizes = frames.flatMap((frame) => [frame.length >> 8, frame.length & 255]);
  return Uint8Array.from([...be32(count), ...sizes, ...be32(128 * count), ...frames.flat()]);
}

/** A frame of 2,048 octets: 170 bundles of 8 octets, and padding. */
const fullFrame = (k) => [...times(170, (n) => message(2, some(8, 170 * k + n))).flat(), ...times(8, () => 0)];

/**
 * Of kind RECEIVE: frames, each taken to its end from a fresh state; PLACE: bundles for frames of `size`; PLAY: recordings; BURST: frames
 * that are taken together, from a fresh state.
 */
export function workloads() {
  const octets = (make) => (k) => Uint8Array.from(make(k));
  return [
    { name: 'receive: bundles of 8 octets', kind: RECEIVE, size: 0, items: framesOf(times(680, (k) => message(2, some(8, k)))) },
    { name: 'receive: pieces of 4 octets, 8 transfers mixed', kind: RECEIVE, size: 0, items: mixed() },
    { name: 'receive: pieces of 2,036 octets', kind: RECEIVE, size: 0, items: times(32, octets(longPiece)) },
    { name: 'receive: timetables of 700 octets, frames of 256', kind: RECEIVE, size: 0, items: times(48, octets(timetable)) },
    { name: 'receive: one zero octet', kind: RECEIVE, size: 0, items: times(32, () => new Uint8Array(1)) },
    { name: 'place: 4,096 octets, frames of 512', kind: PLACE, size: 512, items: times(16, octets((k) => some(4096, k))) },
    { name: 'place: 60 octets, frames of 2,048', kind: PLACE, size: 2048, items: times(512, octets((k) => some(60, k))) },
    { name: 'play: a recording of 480 frames of 128 octets', kind: PLAY, size: 0, items: [recording(480)] },
    { name: 'burst: 64 frames of 2,048 octets, bundles of 8 octets', kind: BURST, size: 0, items: times(64, octets(fullFrame)) },
  ];
}

/** The workloads as a file for bench.c. */
export function pack(list) {
  const u32 = (n) => Uint8Array.of(n & 255, (n >> 8) & 255, (n >> 16) & 255, n >>> 24);
  const parts = [u32(list.length)];
  for (const { kind, size, items } of list) {
    parts.push(u32(kind), u32(size), u32(items.length));
    for (const item of items) parts.push(u32(item.length), item);
  }
  const file = new Uint8Array(parts.reduce((sum, part) => sum + part.length, 0));
  let at = 0;
  for (const part of parts) {
    file.set(part, at);
    at += part.length;
  }
  return file;
}

/** Memory of an instance, lent part by part. */
function lender({ exports }) {
  const base = exports.__heap_base.value, pointer = typeof base === 'bigint' ? BigInt : Number;
  let free = (Number(base) + 63) & ~63;
  withRoom(exports.memory, free + LENT);
  return (length) => {
    const at = free;
    free = (free + length + 63) & ~63;
    return { p: pointer(at), octets: new Uint8Array(exports.memory.buffer, at, length) };
  };
}

const must = (returned) => {
  if (returned !== 0) throw new Error(`refused: ${returned}`);
};

function receiver({ exports: { btpu_receiver_start_window: start, btpu_receive: receive, memory } }, lend, { items }) {
  const state = lend(3144).p, pool = lend(Number(POOL)).p, frame = lend(2048), output = lend(4096).p, result = lend(32).p;
  const answers = new DataView(memory.buffer, Number(result), 32);
  return () => {
    let calls = 0;
    must(start(state, WINDOW));
    for (const item of items) {
      frame.octets.set(item);
      const length = BigInt(item.length);
      for (let place = 0n; ; place = answers.getBigUint64(16, true)) {
        calls++;
        must(receive(state, pool, POOL, frame.p, length, place, output, 4096n, result));
        if (answers.getUint32(0, true) !== 1) break;
      }
    }
    return calls;
  };
}

function placer({ exports: { btpu_sender_start: start, btpu_place: place, memory } }, lend, { items, size }) {
  const sender = lend(24), bundle = lend(4096), frame = lend(2048).p, result = lend(32).p, frameSize = BigInt(size);
  const answers = new DataView(memory.buffer, Number(result), 32);
  return () => {
    let calls = 0;
    must(start(sender.p, frameSize, 0));
    for (const item of items) {
      bundle.octets.set(item);
      const length = BigInt(item.length);
      do {
        calls++;
        must(place(sender.p, bundle.p, length, frame, frameSize, result));
      } while (answers.getUint32(0, true) === READY || sender.octets[BEGUN] !== 0);
    }
    return calls;
  };
}

function player({ exports: { btpu_play: play } }, lend, { items }) {
  const given = lend(63496), pool = lend(65536).p, output = lend(61440).p, lengths = lend(30720).p;
  const places = lend(4096).p, reasons = lend(4096).p, result = lend(32).p, all = 2n ** 64n - 1n;
  return () => {
    for (const item of items) {
      given.octets.set(item);
      must(play(given.p, BigInt(item.length), all, pool, 65536n, output, 61440n, lengths, 15360n, places, 1024n, reasons, 1024n, result));
    }
    return items.length;
  };
}

/** All items in one burst, continued to its end. */
function burster({ exports: { btpu_receiver_start_window: start, btpu_receive_burst: receive, memory } }, lend, { items }) {
  const state = lend(3144).p, pool = lend(Number(POOL)).p, sizes = lend(2 * 64), octets = lend(64 * 2048), output = lend(BURST_OUTPUT).p;
  const lengths = lend(2 * 256).p, numbers = lend(8 * 256).p, places = lend(4 * 64).p, reasons = lend(4 * 64).p, result = lend(40).p;
  const answers = new DataView(memory.buffer, Number(result), 40), count = BigInt(items.length);
  return () => {
    let total = 0, frame = 0n, place = 0n;
    must(start(state, WINDOW));
    items.forEach((item, k) => {
      sizes.octets.set([item.length & 255, item.length >> 8], 2 * k);
      octets.octets.set(item, total);
      total += item.length;
    });
    do {
      must(receive(state, pool, POOL, sizes.p, count, octets.p, BigInt(total), frame, place, output, BigInt(BURST_OUTPUT),
        lengths, numbers, places, reasons, result));
      frame = answers.getBigUint64(16, true);
      place = answers.getBigUint64(24, true);
    } while (frame < count);
    return items.length;
  };
}

/** A function that runs a workload once on the module's exports and answers how many calls it took; of a burst, how many frames. */
export function runner(instance, work) {
  return { [RECEIVE]: receiver, [PLACE]: placer, [PLAY]: player, [BURST]: burster }[work.kind](instance, lender(instance), work);
}

/** Whether a workload is run through the wrapper too. */
export const isWrapped = ({ kind }) => kind === RECEIVE || kind === BURST;

/** A function that runs such a workload once through the wrapper and answers how many frames it took. */
export function wrapped(wrapper, { kind, items }) {
  return () => {
    wrapper.restart();
    if (kind === BURST) wrapper.receiveAll(items);
    else for (const item of items) wrapper.receive(item);
    return items.length;
  };
}

/** Nanoseconds for each call, or each frame of a burst, over at least `ms`. */
export function time(run, ms) {
  const from = performance.now();
  let calls = 0, to = from;
  do {
    for (let k = 0; k < 4; k++) calls += run();
    to = performance.now();
  } while (to - from < ms);
  return ((to - from) * 1e6) / calls;
}
