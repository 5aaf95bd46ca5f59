// Rows of a receiver's image from random numbers: sound ones, and ones that are not sound by a little.
import { be16, pieceLengths, shuffled } from './random-frames.mjs';

const filled = (list, length) => [...list, ...Array(length - list.length).fill(0)];

/** A row that is free; the rows beyond the window are the same. */
export const freeRow = filled([], 196);

/** The octets of a row with these pieces. */
function openRow(indexes, lengths, last = [0, 0]) {
  return [1, ...last, indexes.length, ...filled(indexes, 64), ...filled(lengths.flatMap(be16), 128)];
}

/** Lengths with a sum of just so many octets. */
function lengthsOf(r, count, sum) {
  const lengths = pieceLengths(r, count), k = r.below(count);
  lengths[k] += sum - lengths.reduce((a, b) => a + b, 0);
  return lengths;
}

/** A sound row; an open one holds up to 64 pieces, also long ones, with indexes in any order. */
export function soundRow(r) {
  const phase = r.pick([0, 1, 1, 1, 1, 2, 3, 4]);
  if (phase !== 1) return filled([phase], 196);
  const most = r.pick([4, 16, 63, 64]), count = 1 + r.below(most);
  const indexes = shuffled(r, most).slice(0, count), greatest = Math.max(...indexes);
  // The last piece may be known if it is held, and not all before it are.
  const last = r.once(2) && count <= greatest ? [1, greatest] : [0, 0];
  return openRow(indexes, r.once(2) ? lengthsOf(r, count, 4096) : pieceLengths(r, count), last);
}

/** A row with the same octet from some place on. */
function overwritten(r, row, from) {
  return [...row.slice(0, from), ...Array(196 - Math.min(from, 196)).fill(1 + r.below(255))];
}

/** Rows that are not sound, each by a little. */
export const UNSOUND = [
  (r, n) => openRow(shuffled(r, n), pieceLengths(r, n), [1, n - 1]), // complete
  (r, n) => openRow(shuffled(r, n), lengthsOf(r, n, 4097)),
  (r, n) => openRow(shuffled(r, n).map((index) => (index === n - 1 ? r.below(n + 1) : index)), pieceLengths(r, n)), // mostly doubled
  (r, n) => openRow(shuffled(r, n).map((index) => (index === n - 1 ? 64 : index)), pieceLengths(r, n)),
  (r, n) => openRow(shuffled(r, n), pieceLengths(r, n), [1, r.below(66)]), // a last piece below others, or not held
  (r, n) => overwritten(r, openRow(shuffled(r, n), pieceLengths(r, n)), r.pick([4 + n, 68 + 2 * n, 4 + r.below(190)])),
  (r) => overwritten(r, filled([r.pick([0, 2, 3, 4])], 196), r.pick([4, 68, 4 + r.below(190)])), // not open, and holds something
];
