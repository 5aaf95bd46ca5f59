// @ts-check
/**
 * A run of arrivals on a receiver in which one can go back and forth: what became of each arrival, what the window held, and what a
 * board showed then. It may end after a number of messages, counted as the library's playback counts them.
 */
import { TrapError } from './btpu.mjs';
import { messagesOf, transfersOf } from './frames.mjs';
import { NOTHING, showing } from './timetable.mjs';

/** @typedef {import('./btpu.mjs').Bundle} Bundle */
/** @typedef {import('./btpu.mjs').Refusal} Refusal */
/** @typedef {import('./btpu.mjs').Window} Window */
/** @typedef {import('./btpu.mjs').Draft} Draft */
/** @typedef {import('./frames.mjs').Arrival} Arrival */
/** @typedef {import('./timetable.mjs').Shown} Shown */

/**
 * What the window cost with an arrival: transfer messages that were passed over, since their transfers were outside of it; and transfers not
 * done whose rows were freed, since the window moved on `by` another one.
 * @typedef {object} Cost
 * @property {{ number: number, behind: number }[]} passed
 * @property {{ number: number, phase: import('./btpu.mjs').Phase, pieces: number, by: number }[]} freed
 */
/**
 * The same for one transfer.
 * @typedef {{ arrival: number, passed: Cost['passed'][0] | null, freed: Cost['freed'][0] | null }} Loss
 */
/**
 * What became of an arrival.
 * @typedef {object} Event
 * @property {'lost' | 'taken' | 'refused'} fate
 * @property {Bundle[]} bundles handed out with it
 * @property {Refusal | null} refusal
 * @property {number} messages treated; fewer than the frame has where the run ended inside it
 * @property {number} length octets that the receiver was given
 * @property {{ row: number, index: number }[]} pieces that came with it and are held
 * @property {Cost} cost
 */

/**
 * Octets are those of bundles; passed are the messages that were outside of the window, dropped the open transfers that it left behind.
 * @typedef {Record<'messages' | 'taken' | 'refused' | 'lost' | 'copies' | 'bundles' | 'octets' | 'passed' | 'dropped', number>} Counts
 */
/** @typedef {{ saved: import('./btpu.mjs').SavedReceiver, shown: Shown, counts: Counts }} Checkpoint */

/** How many checkpoints there are at most, of 68 KB each with a window of 16, and how few arrivals lie between two of them at least. */
const CHECKPOINTS = 128, CLOSEST = 16;
/** @type {Cost} */
const NO_COST = Object.freeze({ passed: [], freed: [] });
/** @type {Event} */
const LOST = Object.freeze({ fate: 'lost', bundles: [], refusal: null, messages: 0, length: 0, pieces: [], cost: NO_COST });

/**
 * The pieces that are held after an arrival and were not before.
 * @param {Window} before
 * @param {Window} after
 */
function newPieces(before, after) {
  return after.rows.flatMap(({ row, number, phase, pieces }, k) => {
    if (phase !== 'open') return [];
    const old = before.rows[k];
    // Pieces stand in order of arrival.
    const held = old.phase === 'open' && old.number === number ? old.pieces.length : 0;
    return pieces.slice(held).map(({ index }) => ({ row, index }));
  });
}

/**
 * Where a transfer stands to a window of so many, by the table of document 01 as request E6 reads it.
 * @param {number} number
 * @param {number | null} greatest
 * @param {number} size
 * @returns {'new' | 'inside' | 'outside'}
 */
function standing(number, greatest, size) {
  if (greatest === null) return 'new';
  const distance = (number - greatest) >>> 0;
  if (distance === 0 || distance > 2 ** 32 - size) return 'inside';
  return distance <= 2147483647 + size / 2 ? 'new' : 'outside';
}

/**
 * How the messages of a frame go through a window: those that are passed over, and those that move it. The latter are `alone` where no
 * transfer message stands before them, so that the rows that they free are known from before the frame.
 * @param {Uint8Array} frame
 * @param {Window} before
 * @param {Draft} draft
 */
function passage(frame, { greatest, rows }, draft) {
  /** @type {Cost['passed']} */ const passed = [];
  /** @type {{ start: number, number: number }[]} */ const moves = [];
  const transfers = transfersOf(frame, draft);
  for (const { start, number } of transfers) {
    const stands = standing(number, greatest, rows.length);
    if (stands === 'outside') passed.push({ number, behind: (/** @type {number} */ (greatest) - number) >>> 0 });
    if (stands !== 'new') continue;
    moves.push({ start, number });
    greatest = number;
  }
  return { passed, moves, alone: moves.every(({ start }) => start === transfers[0].start) };
}

/**
 * The transfers of a window that are not done and are left behind when it moves on to a number.
 * @param {Window} window
 * @param {number} by
 * @returns {Cost['freed']}
 */
function freedBy({ rows }, by) {
  return rows.flatMap(({ number, phase, pieces }) => {
    if (number === null || phase === 'free' || phase === 'done' || (by - number) >>> 0 < rows.length) return [];
    return [{ number, phase, pieces: pieces.length, by }];
  });
}

export class Run {
  #receiver;
  #arrivals;
  #limit;
  #position = 0;
  /** @type {Event[]} */ #events = [];
  /** @type {Counts} */ #counts = { messages: 0, taken: 0, refused: 0, lost: 0, copies: 0, bundles: 0, octets: 0, passed: 0, dropped: 0 };
  /** @type {Shown} */ #shown = NOTHING;
  /** @type {Window} */ #window;
  /**
   * One for each multiple of the spacing that was reached.
   * @type {Checkpoint[]}
   */
  #checkpoints = [];
  #spacing;
  /** @type {{ arrival: number, bundle: Bundle }[]} */ #bundles = [];
  /** @type {{ arrival: number, refusal: Refusal }[]} */ #refused = [];
  /**
   * By transfer number.
   * @type {Map<number, Loss[]>}
   */
  #losses = new Map();
  /** @type {{ arrival: number, messages: number, of: number } | null} */ #stop = null;
  /** @type {{ arrival: number, words: string, bundles: Bundle[] } | null} */ #broken = null;

  /**
   * The receiver is restarted, and belongs to this run.
   * @param {import('./btpu.mjs').Receiver} receiver
   * @param {Arrival[]} arrivals
   * @param {{ messages?: number }} [limit]
   */
  constructor(receiver, arrivals, limit = {}) {
    const { messages = Infinity } = limit;
    receiver.restart();
    this.#receiver = receiver;
    this.#arrivals = arrivals;
    this.#limit = messages;
    this.#spacing = Math.max(CLOSEST, Math.ceil(arrivals.length / CHECKPOINTS));
    this.#window = receiver.window();
    if (messages === 0) this.#stop = { arrival: -1, messages: 0, of: 0 };
    this.#keep();
  }

  /** How many arrivals are passed. */
  get position() {
    return this.#position;
  }

  get length() {
    return this.#arrivals.length;
  }

  /** What became of the arrivals, as far as the run ever came. */
  get events() {
    return this.#events;
  }

  /**
   * The counts of all that came up to the position.
   * @returns {Readonly<Counts>}
   */
  get counts() {
    return this.#counts;
  }

  /** Messages treated so far. */
  get messages() {
    return this.#counts.messages;
  }

  /** What a board shows at the position. */
  get shown() {
    return this.#shown;
  }

  /** The window at the position. */
  get window() {
    return this.#window;
  }

  /** Where the limit of messages ended the run, if it stands there: the arrival, and how many of its messages were treated. */
  get stopped() {
    return this.#stop !== null && this.#position === this.#stop.arrival + 1 ? this.#stop : null;
  }

  /** The arrival at which the receiver trapped, if it did, and the bundles that it had handed out before; the run can't go on, nor back. */
  get broken() {
    return this.#broken;
  }

  get atEnd() {
    return this.#position >= this.length || this.stopped !== null || this.#broken !== null;
  }

  /** The draft of the frames that the receiver takes, and its window. */
  get draft() {
    return this.#receiver.draft;
  }

  get windowSize() {
    return this.#receiver.windowSize;
  }

  /** All bundles up to the position, the oldest first. */
  get bundles() {
    return this.#bundles.slice(0, this.#counts.bundles);
  }

  /**
   * What the window cost a transfer up to the position, the oldest first.
   * @param {number} number
   */
  lossesOf(number) {
    return (this.#losses.get(number) ?? []).filter(({ arrival }) => arrival < this.#position);
  }

  /**
   * The last bundles up to the position, the newest first.
   * @param {number} most
   */
  lastBundles(most) {
    const end = this.#counts.bundles;
    return this.#bundles.slice(Math.max(0, end - most), end).reverse();
  }

  /**
   * The last frames refused up to the position, the newest first.
   * @param {number} most
   */
  lastRefused(most) {
    const end = this.#counts.refused;
    return this.#refused.slice(Math.max(0, end - most), end).reverse();
  }

  /**
   * Takes the next arrival.
   * @returns {boolean} whether there was one
   */
  step() {
    if (this.atEnd) return false;
    const arrival = this.#position, { frame, lost, copy } = this.#arrivals[arrival];
    const event = lost ? LOST : this.#take(arrival, frame);
    if (event === null) return false;
    if (arrival === this.#events.length) this.#note(arrival, event);
    this.#position++;
    this.#count(event, copy);
    for (const { octets } of event.bundles) this.#shown = showing(this.#shown, octets);
    this.#keep();
    return true;
  }

  /**
   * Goes back or forth to a position, or as far as the run goes.
   * @param {number} position
   * @returns {number} the position reached
   */
  goTo(position) {
    const target = Math.max(0, Math.min(position, this.length));
    this.near(target);
    while (this.#position < target && this.step()) { /* on */ }
    return this.#position;
  }

  /**
   * Goes to the last checkpoint that is not behind a position, unless fewer steps lead there from where the run stands.
   * @param {number} position
   */
  near(position) {
    if (this.#broken !== null) return;
    const k = Math.max(0, Math.min(Math.floor(position / this.#spacing), this.#checkpoints.length - 1));
    const nearest = k * this.#spacing;
    if (this.#position <= position && this.#position >= nearest) return;
    const { saved, shown, counts } = this.#checkpoints[k];
    this.#receiver.restore(saved);
    this.#position = nearest;
    this.#shown = shown;
    this.#counts = { ...counts };
    this.#window = this.#receiver.window();
  }

  /**
   * Gives a frame to the receiver.
   * @param {number} arrival
   * @param {Uint8Array} frame
   * @returns {Event | null} null where it trapped
   */
  #take(arrival, frame) {
    try {
      const before = this.#window, known = this.#events[arrival]?.cost;
      const saved = known === undefined && !passage(frame, before, this.draft).alone ? this.#receiver.save() : null;
      const taken = this.#receive(arrival, frame), fate = taken.refusal === null ? 'taken' : 'refused';
      const cost = known ?? (fate === 'refused' ? NO_COST : this.#costOf(frame.subarray(0, taken.length), before, saved));
      this.#window = this.#receiver.window();
      return { fate, ...taken, pieces: newPieces(before, this.#window), cost };
    } catch (e) {
      if (!(e instanceof TrapError)) throw e;
      this.#broken = { arrival, words: e.message, bundles: e.bundles };
      return null;
    }
  }

  /**
   * What the window cost with a frame that was taken. Where more than one transfer has messages in it, it is taken again from what was saved,
   * part by part, to see what the window held before each message that moves it; the outcome is the same.
   * @param {Uint8Array} frame
   * @param {Window} before
   * @param {import('./btpu.mjs').SavedReceiver | null} saved
   * @returns {Cost}
   */
  #costOf(frame, before, saved) {
    const { passed, moves } = passage(frame, before, this.draft);
    if (saved === null) return { passed, freed: moves.flatMap(({ number }) => freedBy(before, number)) };
    this.#receiver.restore(saved);
    const freed = moves.flatMap(({ start, number }, k) => {
      this.#receiver.receive(frame.subarray(k === 0 ? 0 : moves[k - 1].start, start));
      return freedBy(this.#receiver.window(), number);
    });
    this.#receiver.receive(frame.subarray(moves.at(-1)?.start ?? 0));
    return { passed, freed };
  }

  /**
   * Gives the whole frame, or its messages up to the limit: a frame cut behind a message is well-formed.
   * @param {number} arrival
   * @param {Uint8Array} frame
   */
  #receive(arrival, frame) {
    const left = this.#limit - this.#counts.messages;
    // A frame has at most as many messages as octets.
    const before = left <= frame.length ? this.#receiver.save() : null;
    const whole = this.#receiver.receive(frame);
    const starts = whole.refusal === null ? messagesOf(frame) : [];
    if (before !== null && starts.length >= left) this.#stop = { arrival, messages: left, of: starts.length };
    if (before === null || starts.length <= left) return { ...whole, messages: starts.length, length: frame.length };
    const length = starts[left];
    this.#receiver.restore(before);
    return { ...this.#receiver.receive(frame.subarray(0, length)), messages: left, length };
  }

  /**
   * @param {number} arrival
   * @param {Event} event
   */
  #note(arrival, event) {
    this.#events.push(event);
    for (const bundle of event.bundles) this.#bundles.push({ arrival, bundle });
    if (event.refusal !== null) this.#refused.push({ arrival, refusal: event.refusal });
    for (const freed of event.cost.freed) this.#lose(freed.number, { arrival, passed: null, freed });
    for (const passed of event.cost.passed) this.#lose(passed.number, { arrival, passed, freed: null });
  }

  /**
   * @param {number} number
   * @param {Loss} loss
   */
  #lose(number, loss) {
    const before = this.#losses.get(number);
    if (before === undefined) this.#losses.set(number, [loss]);
    else before.push(loss);
  }

  /**
   * @param {Event} event
   * @param {boolean} copy
   */
  #count(event, copy) {
    const counts = this.#counts;
    counts[event.fate]++;
    counts.messages += event.messages;
    counts.bundles += event.bundles.length;
    for (const { octets } of event.bundles) counts.octets += octets.length;
    counts.passed += event.cost.passed.length;
    counts.dropped += event.cost.freed.filter(({ phase }) => phase === 'open').length;
    if (copy) counts.copies++;
  }

  /** Keeps a checkpoint where one is due. */
  #keep() {
    if (this.#position !== this.#checkpoints.length * this.#spacing) return;
    this.#checkpoints.push({ saved: this.#receiver.save(), shown: this.#shown, counts: { ...this.#counts } });
  }
}
