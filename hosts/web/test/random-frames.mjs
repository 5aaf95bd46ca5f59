// Frames from random numbers: of random messages; of bundles in pieces that were lost, doubled and put out of order; the greatest
// of each kind; and damaged ones.
import { cancel, chain, message, piece, pieceIn } from './common.mjs';

export const be16 = (n) => [n >> 8, n & 255];
export const be32 = (n) => [n >>> 24, (n >>> 16) & 255, (n >>> 8) & 255, n & 255];

/** Random numbers: xorshift of 32 bits. */
export class Random {
  #x;

  constructor(seed) {
    this.#x = (seed >>> 0) || 1;
    for (let k = 0; k < 8; k++) this.next();
  }

  next() {
    this.#x ^= this.#x << 13;
    this.#x ^= this.#x >>> 17;
    this.#x ^= this.#x << 5;
    return this.#x >>> 0;
  }

  below(n) {
    return this.next() % n;
  }

  /** True once in n times. */
  once(n) {
    return this.next() % n === 0;
  }

  pick(list) {
    return list[this.below(list.length)];
  }

  octets(n) {
    return Uint8Array.from({ length: n }, () => this.next() & 255);
  }
}

function hints(r, count) {
  return Array.from({ length: count }, (_, k) => {
    const value = r.once(3) ? r.octets(r.below(6)) : [];
    return [(r.below(128) << 1) | (k + 1 < count ? 1 : 0), value.length, ...value];
  }).flat();
}

/** A message of any type. `run` holds the transfer numbers in use, in which manner they go on, the draft, and the receiver's window. */
function randomMessage(r, run) {
  const [segment, final] = run.draft === '00' ? [4, 3] : [3, 4], transfer = [segment, segment, segment, segment, final, final, 5];
  const type = r.pick([0, 1, 2, ...transfer, 6 + r.below(250)]);
  if (type === 0) return Array(1 + r.below(4)).fill(0);
  const flagged = run.draft !== '00' || r.once(80); // a frame of draft 00 with flags is refused
  const before = flagged && type <= 5 && r.once(4) ? hints(r, 1 + r.below(4)) : [];
  if (r.once(30)) run.base = (run.base + [1, r.below(40), r.next(), 2][run.manner]) >>> 0;
  else if (r.once(6)) run.base = (run.base + 1) >>> 0;
  const far = r.once(60) ? 0x80000000 + r.below(40) - 20 : 0; // half a turn of the numbers away, where old and new part
  const number = (run.base + far - r.below(run.manner === 0 ? 3 : run.window + 2)) >>> 0;
  const reserved = flagged && r.once(4) ? r.below(8) << 4 : 0;
  const flags = (before.length > 0 ? 128 : 0) | reserved;
  if (type === 5) return message(5, flags, [...before, ...be32(number)]);
  if (type < 3 || type > 5) return message(type, flags, [...before, ...r.octets(r.below(8))]);
  let index = type === final ? 3 : r.below(4);
  if (r.once(40)) index = 60 + r.below(8);
  if (r.once(200)) index = r.next();
  const data = r.octets(r.once(40) ? r.below(1500) : r.below(6));
  return message(type, flags, [...before, ...be32(number), ...be32(index), ...data]);
}

export function randomFrame(r, run) {
  return Array.from({ length: 1 + r.below(run.manner === 3 ? 60 : 18) }, () => randomMessage(r, run)).flat();
}

/** The numbers below n in any order. */
export function shuffled(r, n) {
  return Array.from({ length: n }, (_, k) => ({ k, key: r.next() })).sort((a, b) => a.key - b.key).map(({ k }) => k);
}

/** Lengths of pieces, at most 4,096 octets in all: mostly short ones, with long ones anywhere among them. */
export function pieceLengths(r, count) {
  let left = 4096;
  const lengths = Array.from({ length: count }, () => {
    const length = Math.min(left, r.once(5) ? r.below(1000) : r.below(4));
    left -= length;
    return length;
  });
  return shuffled(r, count).map((k) => lengths[k]);
}

/** The messages of a bundle cut evenly or anywhere, with long pieces among short and empty ones. */
function cutBundle(r, { base: number, draft }) {
  const count = 1 + r.below(r.once(3) ? 64 : 8);
  if (r.once(3)) return pieceLengths(r, count).map((length, k) => pieceIn(draft, number, k, count, r.octets(length)));
  const octets = r.octets(r.below(r.once(3) ? 4300 : 600)), length = octets.length;
  const even = r.once(2);
  const inner = Array.from({ length: count - 1 }, (_, k) => {
    if (even) return Math.floor(((k + 1) * length) / count);
    return r.once(2) ? r.below(length + 1) : Math.min(length, r.below(60));
  }).sort((a, b) => a - b);
  const cuts = [0, ...inner, length];
  return Array.from({ length: count }, (_, k) => pieceIn(draft, number, k, count, octets.subarray(cuts[k], cuts[k + 1])));
}

/** Messages in frames, in this order; what has no room in a frame never comes. */
function packed(r, messages) {
  const frames = [];
  let frame = [];
  for (const m of messages.filter((m) => m.length <= 2048)) {
    if (frame.length + m.length > 2048 || (frame.length > 0 && r.once(5))) {
      frames.push(frame);
      frame = [];
    }
    frame.push(...m);
  }
  return frame.length > 0 ? [...frames, frame] : frames;
}

/** Frames with the pieces of some bundles, with losses and doubles, and not in order. */
export function traffic(r, run, bundles = 12) {
  const messages = [];
  for (let k = 0; k < bundles; k++) {
    messages.push(...cutBundle(r, run));
    if (r.once(12)) messages.push(cancel(run.base));
    if (r.once(4)) messages.push(message(2, 0, r.octets(r.below(300))));
    run.base = (run.base + 1) >>> 0;
  }
  const far = 1 + r.below(40);
  const times = () => (r.once(10) ? 0 : r.once(6) ? 2 : 1);
  const order = messages.flatMap((m, k) => Array.from({ length: times() }, () => ({ m, key: k + r.below(far) })));
  return packed(r, order.sort((a, b) => a.key - b.key).map(({ m }) => m));
}

/** The greatest frames of each kind, and frames of lengths that are refused. */
export const GREATEST = [
  () => message(2, 128, chain(1022)),
  () => message(2, 128, [...chain(1021), 1, 0]), // this chain doesn't end
  (r, run) => piece(true, run.base, 0, r.octets(2), chain(1017)),
  () => Array(512).fill([2, 0, 0, 0]).flat(),
  () => Array(2048).fill(0),
  (r) => r.octets(2049 + r.below(100)),
  () => [],
  (r) => message(2, 0, r.octets(2044)),
  (r, run) => Array.from({ length: 128 }, (_, k) => pieceIn(run.draft, run.base + (k >> 6), k % 64, 64, r.octets(4))).flat(),
  (r, run) => piece(false, run.base, r.below(64), r.octets(2036)),
];

export function damaged(r, frame) {
  const octets = [...frame];
  if (octets.length === 0) return octets;
  if (r.once(3)) return octets.slice(0, r.below(octets.length + 1));
  for (let times = 1 + r.below(2); times > 0; times--) {
    const k = r.below(r.once(2) ? Math.min(octets.length, 12) : octets.length);
    octets[k] = r.once(2) ? octets[k] ^ (1 << r.below(8)) : r.next() & 255;
  }
  return octets;
}

export function someFrames(r, run, count) {
  if (run.manner === 2) return traffic(r, run);
  return Array.from({ length: count }, () => (r.once(16) ? r.pick(GREATEST)(r, run) : randomFrame(r, run)));
}
