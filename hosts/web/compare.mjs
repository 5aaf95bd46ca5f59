// @ts-check
/** The desk's comparison of two boards that take the same frames: what each window takes and costs, what one board lacks, and why. */
import { SIZES } from './btpu.mjs';
import { element, figure, make, many } from './dom.mjs';
import { lackedBy, reasonOf } from './pair.mjs';

/** @typedef {import('./run.mjs').Run} Run */
/** @typedef {import('./pair.mjs').Handed} Handed */
/** @typedef {import('./pair.mjs').Reason} Reason */
/** @typedef {(text: string, arrival: number) => HTMLElement} Go makes a button that goes to a frame */

const NAMES = ['first', 'second'];
/** The most that is listed. */
const LISTED = 100;

/**
 * What each of two boards lacks and the other has handed out. Of a board that failed nothing is said.
 * @param {Run} first
 * @param {Run} second
 * @returns {[Handed[], Handed[]]}
 */
export function lacking(first, second) {
  if (first.position !== second.position) return [[], []];
  return [lackedBy(first, second), lackedBy(second, first)];
}

/**
 * What comes of comparing two boards, in words.
 * @param {Run} first
 * @param {Run} second
 * @param {[Handed[], Handed[]]} lacked
 */
function verdict(first, second, lacked) {
  if (second.broken !== null) return `The second board failed at frame ${figure(second.broken.arrival + 1)}: ${second.broken.words}.`;
  const said = [1, 0].filter((k) => lacked[k].length > 0)
    .map((k) => `The ${NAMES[k]} board lacks ${many(lacked[k].length, 'bundle')} that the ${NAMES[1 - k]} one has.`);
  if (said.length > 0) return said.join(' ');
  return first.counts.bundles === 0 ? 'No board has handed out a bundle yet.' : 'Both boards have handed out the same bundles.';
}

/**
 * Why a board lacks the bundle of a transfer, in words.
 * @param {Reason} reason
 * @param {number} size of its window
 */
export function reasonInWords({ kind, arrival, by, pieces, passed, last, behind }, size) {
  const at = (/** @type {number} */ k) => `frame ${figure(k + 1)}`;
  const late = `the last at ${at(last)}, when it was ${figure(behind)} behind: this board goes back ${size - 1}.`;
  const words = {
    freed: `Its row was freed at ${at(arrival ?? 0)}, when transfer ${by} came: ${many(pieces, 'piece')} held ${pieces === 1 ? 'was' : 'were'} lost.`,
    behind: `${many(passed, 'message')} of it came too late, ${late}`,
    'given up': 'Given up: its messages contradict each other or are too many.',
    cancelled: 'Cancelled by the sender.',
    before: 'A transfer of this number was handed out before, and a number is handed out once.',
    open: 'Pieces of it are missing.',
  };
  return kind === 'freed' && passed > 0 ? `${words.freed} ${many(passed, 'message')} of it came later, ${late}` : words[kind];
}

/**
 * What each board's window takes, and what it cost up to here.
 * @param {Run[]} boards
 * @param {[Handed[], Handed[]]} lacked
 */
function costs(boards, lacked) {
  const rows = {
    'Window, transfers': boards.map((board) => board.windowSize),
    'Pool, octets': boards.map((board) => SIZES.poolPerRow * board.windowSize),
    'Bundles handed out': boards.map((board) => board.counts.bundles),
    'Bundles lacking': lacked.map((list) => list.length),
    'Dropped half-received': boards.map((board) => board.counts.dropped),
    'Messages too far behind': boards.map((board) => board.counts.passed),
  };
  return Object.entries(rows).map(([name, figures]) => {
    const row = make('tr', ''), head = make('th', '', name);
    head.setAttribute('scope', 'row');
    row.append(head, ...figures.map((n) => make('td', 'n', figure(n))));
    return row;
  });
}

/**
 * The items that are drawn, by what they say: those which stay are not made anew.
 * @type {Map<string, HTMLElement>}
 */
let items = new Map();

/**
 * @param {number} k the board that lacks it
 * @param {Run} board
 * @param {Handed} handed by the other one
 * @param {Go} go
 * @returns {[string, HTMLElement]}
 */
function item(k, board, { arrival, bundle: { number } }, go) {
  const reason = reasonOf(board, /** @type {number} */ (number)), words = reasonInWords(reason, board.windowSize);
  const key = `${k} ${number} ${arrival} ${words}`, drawn = items.get(key);
  if (drawn !== undefined) return [key, drawn];
  const made = make('li', ''), top = make('div', 'top'), frames = make('div', 'frames');
  top.append(make('span', 'what', `Transfer ${number}`), make('span', 'only', `not on the ${NAMES[k]} board`));
  if (reason.arrival !== null) frames.append(go(`Lost at frame ${figure(reason.arrival + 1)}`, reason.arrival));
  frames.append(go(`On the ${NAMES[1 - k]} board at frame ${figure(arrival + 1)}`, arrival));
  made.append(top, make('p', 'why', words), frames);
  Object.assign(made.dataset, { board: NAMES[k], number: `${number}`, kind: reason.kind, frame: `${arrival}` });
  return [key, made];
}

/**
 * Draws all that the two boards are compared by.
 * @param {Run} first
 * @param {Run} second
 * @param {[Handed[], Handed[]]} lacked
 * @param {Go} go
 */
export function drawComparison(first, second, lacked, go) {
  const boards = [first, second], all = lacked.flatMap((list, k) => list.map((handed) => ({ k, handed })));
  all.sort((a, b) => b.handed.arrival - a.handed.arrival);
  const said = verdict(first, second, lacked);
  if (element('verdict').textContent !== said) element('verdict').textContent = said; // it is read out when it changes
  element('costs').tBodies[0].replaceChildren(...costs(boards, lacked));
  items = new Map(all.slice(0, LISTED).map(({ k, handed }) => item(k, boards[k], handed, go)));
  const box = element('lacking'), drawn = [...items.values()];
  if (drawn.length !== box.children.length || drawn.some((one, n) => one !== box.children[n])) box.replaceChildren(...drawn);
  element('more-lacking').textContent = all.length > LISTED ? `and ${figure(all.length - LISTED)} more before these` : '';
}
