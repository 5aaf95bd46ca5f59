// What a window costs and what a board lacks, reckoned for tests from the native library alone: every message goes to it as a frame of its
// own, and its states before and after are looked at. Distances are those of document 01's table as request E6 reads it.
import { natively, windowsAfter } from './common.mjs';

/** The messages of a frame that is well-formed. */
function messagesIn(frame, draft) {
  const view = new DataView(frame.buffer, frame.byteOffset, frame.byteLength), list = [];
  for (let at = 0, next = 0; at < frame.length; at = next) {
    if (frame[at] === 0) for (next = at; frame[next] === 0;) next++;
    else next = at + 4 + (view.getUint32(at) & (draft === '00' ? 0xffffff : 0xfffff));
    list.push(frame.slice(at, next));
  }
  return list;
}

/** The number of a transfer message, as a BigInt; null of any other. */
function numberOf(octets, draft) {
  if (octets[0] < 3 || octets[0] > 5) return null;
  let content = octets.subarray(4);
  if (draft === '02' && octets[1] >= 128) {
    for (let more = true; more; content = content.subarray(2 + content[1])) more = content[0] % 2 === 1;
  }
  return BigInt(new DataView(content.buffer, content.byteOffset).getUint32(0));
}

const TURN = 2n ** 32n;

/** How far a number is behind the greatest one, if it is outside of a window; else null. */
function outsideBy(number, greatest, window) {
  if (greatest === null) return null;
  const distance = (number - BigInt(greatest) + TURN) % TURN;
  const isNew = distance >= 1n && distance <= 2147483647n + BigInt(window / 2), isInside = distance === 0n || distance >= TURN - BigInt(window) + 1n;
  return isNew || isInside ? null : Number(TURN - distance);
}

/** The transfers that were neither free nor done before a message, and are not in the window any more. */
function leftBehind(before, after, number) {
  const still = new Set(after.rows.map((row) => row.number));
  return before.rows.filter(({ number: one, phase }) => one !== null && !still.has(one) && phase !== 'free' && phase !== 'done')
    .map(({ number: one, phase, pieces }) => ({ number: one, phase, pieces: pieces.length, by: Number(number) }));
}

/** What the native library makes of the arrivals that come, with their places among all. */
export function nativelyCame(arrivals, settings) {
  const came = [...arrivals.keys()].filter((k) => !arrivals[k].lost);
  const { bundles, refused, greatest, rows } = natively(came.map((k) => arrivals[k].frame), settings);
  const placed = (list) => list.map(({ frame, ...rest }) => ({ arrival: came[frame], ...rest }));
  return { came, bundles: placed(bundles), refused: placed(refused), window: { greatest, rows } };
}

/** For each arrival: the messages passed over, and the transfers left behind. */
export function reckoned(arrivals, { draft, window }) {
  const { came, refused } = nativelyCame(arrivals, { draft, window }), bad = new Set(refused.map((r) => r.arrival));
  const single = came.filter((k) => !bad.has(k)).flatMap((k) => messagesIn(arrivals[k].frame, draft).map((octets) => ({ k, octets })));
  const windows = windowsAfter(single.map(({ octets }) => octets), { draft, window });
  const costs = arrivals.map(() => ({ passed: [], freed: [] }));
  let before = { greatest: null, rows: [] };
  single.forEach(({ k, octets }, n) => {
    const number = numberOf(octets, draft), behind = number === null ? null : outsideBy(number, before.greatest, window);
    if (behind !== null) costs[k].passed.push({ number: Number(number), behind });
    costs[k].freed.push(...leftBehind(before, windows[n], number));
    before = windows[n];
  });
  return costs;
}

/** The bundles of transfers that a board lacks and another one has handed out, the oldest first. */
export function lackingOf(own, all) {
  const left = own.map((b) => `${b.number} ${b.octets}`);
  return all.filter((b) => {
    const k = left.indexOf(`${b.number} ${b.octets}`);
    if (k >= 0) left.splice(k, 1);
    return k < 0 && b.number !== '-';
  });
}
