// @ts-check
/** Timetables as the sample pages read them, and samples that show what a small window costs, in frames that the library's sender fills. */
import { Sender } from './btpu.mjs';

/**
 * A timetable with a departure every `step` minutes; # in a line stands for the platform, 1 and 2 in turn.
 * @param {string} station
 * @param {string} first
 * @param {number} step
 * @param {number} count
 * @param {string[]} lines
 */
export function timetable(station, first, step, count, lines) {
  const [hour, minute] = first.split(':').map(Number);
  const departures = Array.from({ length: count }, (_, k) => {
    const at = hour * 60 + minute + step * k;
    const time = [Math.floor(at / 60) % 24, at % 60].map((n) => String(n).padStart(2, '0')).join(':');
    return `${time} ${lines[k % lines.length].replace('#', `Platform ${1 + (k % 2)}`)}\n`;
  });
  return `Timetable: ${station}\nEdition: 1\n${departures.join('')}`;
}

const STATIONS = [
  'Mill Bridge', 'Upper Valley', 'Harbour', 'Lake End', 'Old Town', 'Quarry', 'Weir', 'Northgate', 'Saw Mill', 'High Bridge', 'East Field',
  'Pine Ridge', 'Glass Works', 'South Quay', 'Castle Hill', 'Long Meadow', 'Stone Gate', 'Ferry Landing',
];
const FIRST_NUMBER = 101, FRAME_SIZE = 128;
/** So many transfers are mixed: too many for a window of 4, then too many for one of 8. */
const MIXED = [6, 12];
/** A piece of these transfers comes so many transfers later: in time for every window, too late for 4, too late for 4 and 8. */
const LATE = [{ transfer: 1, later: 3 }, { transfer: 5, later: 6 }, { transfer: 3, later: 12 }];

/**
 * The frames of each transfer; none holds anything of two.
 * @param {import('./btpu.mjs').Draft} draft
 * @param {import('./btpu.mjs').Source} [source] as for load
 */
async function transfers(draft, source) {
  const sender = await Sender.create({ frameSize: FRAME_SIZE, firstNumber: FIRST_NUMBER, draft }, source);
  return STATIONS.map((station, k) => {
    const table = timetable(station, `06:${10 + 2 * k}`, 20, 8, [`Line R${1 + (k % 6)} # ${STATIONS[(k + 5) % STATIONS.length]}`]);
    const full = sender.send(new TextEncoder().encode(table)), rest = sender.flush();
    return rest === null ? full : [...full, rest];
  });
}

/**
 * The first frame of each transfer, then the second of each, and so on.
 * @param {Uint8Array[][]} list
 */
function inTurn(list) {
  const most = Math.max(...list.map((frames) => frames.length));
  return Array.from({ length: most }, (_, k) => list.flatMap((frames) => frames.slice(k, k + 1))).flat();
}

/** @param {Uint8Array[][]} list */
function mixed(list) {
  let from = 0;
  return MIXED.flatMap((count) => inTurn(list.slice(from, (from += count))));
}

/** @param {Uint8Array[][]} list */
function late(list) {
  return list.flatMap((frames, k) => {
    const kept = LATE.some(({ transfer }) => transfer === k) ? frames.filter((_, n) => n !== 1) : frames;
    return [...kept, ...LATE.filter(({ transfer, later }) => transfer + later === k).map(({ transfer }) => list[transfer][1])];
  });
}

/**
 * Each transfer twice, before the next one.
 * @param {Uint8Array[][]} list
 */
const sequence = (list) => list.flatMap((frames) => [...frames, ...frames]);

/** @type {Record<string, (list: Uint8Array[][]) => Uint8Array[]>} */
const ORDERS = { mixed, late, sequence };

/**
 * The frames of a sample: of transfers that are mixed, or of which a piece comes late, so that a small window loses some; or of transfers in
 * sequence, which cost it nothing.
 * @param {'mixed' | 'late' | 'sequence'} kind
 * @param {import('./btpu.mjs').Draft} draft
 * @param {import('./btpu.mjs').Source} [source]
 */
export const windowSample = async (kind, draft, source) => ORDERS[kind](await transfers(draft, source));
