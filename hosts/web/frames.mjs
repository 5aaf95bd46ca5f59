// @ts-check
/** Frames as lines of hex, the format of the command line's programs; and a radio link that loses, doubles, shuffles and damages them. */

/** @typedef {{ line: number, words: string }} Fault a line that was left out, counted from 1, and why */
/** @typedef {{ frames: Uint8Array[], faults: Fault[] }} Hex */

const BLANK = 16, END = 17, OTHER = 18, HASH = 35;
/** What each character of ASCII is to a line of hex: the value of a digit, or one of the above. */
const KINDS = Uint8Array.from({ length: 128 }, (_, code) => {
  const character = String.fromCharCode(code);
  if (/[0-9a-f]/i.test(character)) return parseInt(character, 16);
  if (/[\r\n]/.test(character)) return END;
  return /\s/.test(character) ? BLANK : OTHER;
});

/** @param {number} code of a character */
function kindOf(code) {
  if (code < 128) return KINDS[code];
  return /\s/.test(String.fromCharCode(code)) ? BLANK : OTHER;
}

/**
 * Reads one line; its octets go to the front of `octets`.
 * @param {string} text
 * @param {number} from where the line starts
 * @param {Uint8Array} octets
 * @returns {{ end: number, digits: number, comment: boolean, bad: boolean }}
 */
function readLine(text, from, octets) {
  let end = from, digits = 0, comment = false, bad = false;
  for (; end < text.length; end++) {
    const code = text.charCodeAt(end), kind = kindOf(code);
    if (kind < 16) {
      octets[digits >> 1] = (octets[digits >> 1] << 4) | kind;
      digits++;
    } else if (kind === END) {
      break;
    } else if (kind === OTHER) {
      if (code === HASH && digits === 0 && !bad) comment = true;
      bad = true;
    }
  }
  return { end, digits, comment, bad };
}

const BETWEEN = 1 << 16;

/**
 * Reads lines of hex as readHex does, and says from time to time how many characters are read.
 * @param {string} text
 * @returns {Generator<number, Hex, void>}
 */
export function* readingHex(text) {
  /** @type {Uint8Array[]} */ const frames = [];
  /** @type {Fault[]} */ const faults = [];
  const octets = new Uint8Array((text.length >> 1) + 1);
  let said = 0;
  for (let at = 0, line = 1; at < text.length; line++) {
    const { end, digits, comment, bad } = readLine(text, at, octets);
    if (bad && !comment) faults.push({ line, words: 'not hex' });
    else if (!comment && digits % 2 === 1) faults.push({ line, words: 'half an octet is missing' });
    else if (!comment && digits > 0) frames.push(octets.slice(0, digits / 2));
    at = end + (text.startsWith('\r\n', end) ? 2 : 1);
    if (at - said >= BETWEEN) yield (said = at);
  }
  return { frames, faults };
}

/**
 * Reads lines of hex, one frame a line. Empty lines and lines that begin with # are passed over, spaces within a line too.
 * @param {string} text
 * @returns {Hex}
 */
export function readHex(text) {
  const reading = readingHex(text);
  let turn = reading.next();
  while (!turn.done) turn = reading.next();
  return turn.value;
}

const PAIRS = Array.from({ length: 256 }, (_, octet) => octet.toString(16).padStart(2, '0'));

/**
 * @param {Uint8Array} octets
 * @param {string} [between] what stands between two octets
 */
export const hexOf = (octets, between = '') => Array.from(octets, (octet) => PAIRS[octet]).join(between);

/** @param {Uint8Array[]} frames */
export const writeHex = (frames) => frames.map((frame) => `${hexOf(frame)}\n`).join('');

/**
 * Where the messages of a frame start; a run of zero octets counts as one. The frame is one that the library did not refuse, in either
 * draft: where draft 02 has flags, a frame of draft 00 has zero then, the upper octet of the length.
 * @param {Uint8Array} frame
 * @returns {number[]}
 */
export function messagesOf(frame) {
  const starts = [];
  for (let at = 0; at < frame.length;) {
    starts.push(at);
    if (frame[at] === 0) while (frame[at] === 0) at++;
    else at += 4 + (((frame[at + 1] & 15) << 16) | (frame[at + 2] << 8) | frame[at + 3]);
  }
  return starts;
}

/**
 * Where the content of a message starts: behind its header and, in draft 02, its hints.
 * @param {Uint8Array} frame
 * @param {number} start
 * @param {import('./btpu.mjs').Draft} draft
 */
function contentAt(frame, start, draft) {
  let at = start + 4;
  for (let more = draft === '02' && (frame[start + 1] & 128) !== 0; more;) {
    more = (frame[at] & 1) === 1;
    at += 2 + frame[at + 1];
  }
  return at;
}

/**
 * The transfer messages of a frame that the library did not refuse: where each starts, and the number of its transfer.
 * @param {Uint8Array} frame
 * @param {import('./btpu.mjs').Draft} draft
 * @returns {{ start: number, number: number }[]}
 */
export function transfersOf(frame, draft) {
  const starts = messagesOf(frame).filter((start) => frame[start] >= 3 && frame[start] <= 5);
  return starts.map((start) => {
    const [a, b, c, d] = frame.subarray(contentAt(frame, start, draft));
    return { start, number: ((a << 24) | (b << 16) | (c << 8) | d) >>> 0 };
  });
}

/**
 * Numbers from a seed, the same in every engine (xorshift).
 * @param {number} seed
 */
export function numbers(seed) {
  let x = (seed ^ 0x9e3779b9) >>> 0 || 1;
  const next = () => {
    x ^= x << 13;
    x ^= x >>> 17;
    x ^= x << 5;
    x >>>= 0;
    return x;
  };
  for (let k = 0; k < 16; k++) next();
  return {
    below: (/** @type {number} */ n) => next() % n,
    percent: (/** @type {number} */ p) => next() % 10000 < p * 100,
  };
}

/**
 * Percentages, and for shuffle places.
 * @typedef {Record<'seed' | 'lose' | 'double' | 'shuffle' | 'damage', number>} Link
 */
/** @typedef {{ frame: Uint8Array, source: number, lost: boolean, copy: boolean, damaged: boolean }} Arrival */

/**
 * A frame with one bit of its first 16 octets turned.
 * @param {Uint8Array} frame
 * @param {number} at
 * @param {number} bit
 */
function damage(frame, at, bit) {
  const damaged = frame.slice();
  damaged[at % Math.min(frame.length, 16)] ^= 1 << bit;
  return damaged;
}

/**
 * What comes of frames over the link, in order of arrival; lost frames stand where they would have come.
 * @param {Uint8Array[]} frames
 * @param {Link} link
 * @returns {Arrival[]}
 */
export function overLink(frames, link) {
  const good = link.lose === 0 && link.double === 0 && link.shuffle === 0 && link.damage === 0;
  if (good) return frames.map((frame, source) => ({ frame, source, lost: false, copy: false, damaged: false }));
  const { below, percent } = numbers(link.seed);
  /** @type {{ arrival: Arrival, key: number }[]} */ const arrivals = [];
  frames.forEach((frame, source) => {
    // Each frame draws the same count of numbers, in this order, so that one control does not change what another does.
    const lost = percent(link.lose), twice = percent(link.double), first = below(1000), second = below(1000);
    const hurt = percent(link.damage), at = below(1 << 20), bit = below(8);
    const damaged = hurt && frame.length > 0;
    const key = (/** @type {number} */ n) => source + (link.shuffle * n) / 1000;
    arrivals.push({ arrival: { frame: damaged ? damage(frame, at, bit) : frame, source, lost, copy: false, damaged }, key: key(first) });
    if (twice) arrivals.push({ arrival: { frame, source, lost: false, copy: true, damaged: false }, key: key(second) });
  });
  return arrivals.sort((p, q) => p.key - q.key).map(({ arrival }) => arrival);
}
