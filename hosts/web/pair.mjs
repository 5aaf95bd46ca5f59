// @ts-check
/** Two boards that take the same arrivals: which bundles the one has handed out and the other lacks, and why. */

/** @typedef {import('./run.mjs').Run} Run */
/** @typedef {{ arrival: number, bundle: import('./btpu.mjs').Bundle }} Handed */
/**
 * Why a board lacks the bundle of a transfer:
 *
 *   freed       its row was freed when the window moved on `by` another transfer, with `pieces` held
 *   behind      its messages came when it was outside of the window
 *   given up, cancelled
 *   before      the number was used before, and is handed out once
 *   open        pieces of it are missing
 *
 * With freed and behind, `passed` messages came when it was outside, the last one at the arrival `last`, when it was `behind`.
 * @typedef {object} Reason
 * @property {'freed' | 'behind' | 'given up' | 'cancelled' | 'before' | 'open'} kind
 * @property {number | null} arrival with which it was lost, where that is known
 * @property {number} by
 * @property {number} pieces
 * @property {number} passed
 * @property {number} last
 * @property {number} behind
 */

/**
 * @param {Uint8Array} a
 * @param {Uint8Array} b
 */
const same = (a, b) => a.length === b.length && a.every((octet, k) => octet === b[k]);

/**
 * The bundles that a board lacks and another one, at the same place, has handed out. A bundle in one message is handed out by every board
 * each time it comes, so only those of transfers count.
 * @param {Run} board
 * @param {Run} other
 * @returns {Handed[]} the oldest first
 */
export function lackedBy(board, other) {
  /** @type {Map<number, Uint8Array[]>} */ const own = new Map();
  for (const { bundle: { number, octets } } of board.bundles) {
    if (number !== null) own.set(number, [...(own.get(number) ?? []), octets]);
  }
  return other.bundles.filter(({ bundle: { number, octets } }) => {
    if (number === null) return false;
    const handed = own.get(number) ?? [], k = handed.findIndex((one) => same(one, octets));
    if (k >= 0) handed.splice(k, 1);
    return k < 0;
  });
}

/** @type {Reason} */
const NONE = Object.freeze({ kind: 'open', arrival: null, by: 0, pieces: 0, passed: 0, last: 0, behind: 0 });

/**
 * Why a board lacks the bundle of a transfer, at its place.
 * @param {Run} board
 * @param {number} number
 * @returns {Reason}
 */
export function reasonOf(board, number) {
  if (board.bundles.some(({ bundle }) => bundle.number === number)) return { ...NONE, kind: 'before' };
  const losses = board.lossesOf(number), row = board.window.rows.find((one) => one.number === number);
  const freed = losses.find((loss) => loss.freed?.phase === 'open'), ended = losses.find((loss) => loss.freed !== null);
  const passed = losses.filter((loss) => loss.passed !== null), last = passed.at(-1);
  const outside = { ...NONE, passed: passed.length, last: last?.arrival ?? 0, behind: last?.passed?.behind ?? 0 };
  if (freed?.freed) return { ...outside, kind: 'freed', arrival: freed.arrival, by: freed.freed.by, pieces: freed.freed.pieces };
  const phase = ended?.freed?.phase ?? row?.phase;
  if (phase === 'given up' || phase === 'cancelled') return { ...NONE, kind: phase };
  return last === undefined ? NONE : { ...outside, kind: 'behind', arrival: passed[0].arrival };
}
