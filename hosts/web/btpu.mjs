// @ts-check
/**
 * Bundle transfer over frames for browsers and node: receiver, sender and recordings, over btpu.wasm, the proved library
 * compiled for WebAssembly. It depends on nothing else; types stand in btpu.d.mts.
 *
 *     import { Receiver } from './btpu.mjs';
 *     const receiver = await Receiver.create();               // loads btpu.wasm from beside this file
 *     const { bundles, refusal } = receiver.receive(frame);   // a frame: a Uint8Array of 1 to 2,048 octets
 *     const all = receiver.receiveAll(frames);                // the same for many frames, in fewer calls of the module
 *
 * Receivers and senders are of draft 02 of the protocol, or of draft 00 where they are made with `draft: '00'`. A frame does not say of
 * which draft it is: a receiver takes every frame for one of its own. A receiver has a window of 8 transfers, or of 4 or 16 where it is
 * made with `window`. A smaller one takes less memory; in return a transfer is lost as soon as it is so many numbers behind the greatest.
 *
 * Each receiver and each sender has an instance of the module, and so memory, of its own: a trap in one touches no other. The module
 * imports nothing, so no call comes back into this file. Its memory grows by what is lent to it, and in no call.
 * @module
 */

/** @typedef {import('./btpu.mjs').Octets} Octets */
/** @typedef {import('./btpu.mjs').Source} Source */
/** @typedef {import('./btpu.mjs').Draft} Draft */
/** @typedef {import('./btpu.mjs').WindowSize} WindowSize */
/** @typedef {import('./btpu.mjs').ReceiverStart} ReceiverStart */
/** @typedef {import('./btpu.mjs').SenderStart} SenderStart */
/** @typedef {import('./btpu.mjs').Bundle} Bundle */
/** @typedef {import('./btpu.mjs').Refusal} Refusal */
/** @typedef {{ at: number, size: number, octets: Uint8Array, pointer: number | bigint }} Lent octets of the module's memory */

/** Sizes in octets, of lists in entries and of windows in transfers, as in btpu.h. */
export const SIZES = Object.freeze({
  receiverImage: 3144,
  senderImage: 24,
  /** Of the pool, for each transfer of the window. */
  poolPerRow: 4096,
  /** The window of a receiver that is made with none, the greatest, and that of a playback. */
  plainWindow: 8,
  maxWindow: 16,
  playWindow: 16,
  output: 4096,
  bundle: 4096,
  frame: 2048,
  burstFrames: 64,
  burstBundles: 256,
  recording: 63496,
  recordedFrames: 1024,
  recordedOctets: 61440,
  playedBundles: 15360,
});

const EXPORTS = [
  'btpu_receiver_start', 'btpu_receiver_start_window', 'btpu_receiver_start_00', 'btpu_receiver_check', 'btpu_receive',
  'btpu_receive_burst', 'btpu_sender_start', 'btpu_sender_start_00', 'btpu_sender_check', 'btpu_place', 'btpu_cancel', 'btpu_flush',
  'btpu_record', 'btpu_recording_open', 'btpu_play',
];
/** The octet of a receiver's image that tells the window; those that tell the draft: 1 for draft 00, 0 for draft 02. */
const RECEIVER_WINDOW = 1, RECEIVER_DRAFT = 2, SENDER_DRAFT = 9;
const PAGE = 65536;
const FINISHED = 0;
const NO_NUMBER = 2 ** 32;
const PLACED = 0, PLACED_AND_READY = 1, READY = 2;
/** Octets lent for the bundles of a burst: 16 times what one bundle may have. */
const BURST_OUTPUT = 65536;
/** Octets of the result of a burst; the other results are shorter. */
const RESULT = 40;

/** @type {Readonly<Record<number, string>>} */
const WORDS = Object.freeze({
  1: 'not a sound state',
  2: 'pool not 4,096 octets times the window, or output below 4,096',
  3: 'frame of 0 or more than 2,048 octets',
  4: 'fewer than 4 octets left for a header',
  5: 'reserved flag bits',
  6: 'a length runs past the frame',
  7: 'a chain of hints runs past its message',
  8: 'content of a transfer message too short, or of a cancel not 4 octets',
  9: 'not a good place',
  10: 'frame buffer not of the frame size',
  11: 'bundle of 0 or more than 4,096 octets',
  12: 'not the length of the transfer begun',
  13: 'no transfer is begun',
  14: 'frame size outside 128 to 2,048',
  16: 'octets of the recording are missing',
  17: 'more than 1,024 frames or 61,440 octets',
  18: "a frame's length outside 1 to 2,048",
  19: 'the octets are not the sum of the lengths',
  20: 'octets behind the recording',
  21: 'window not 4, 8 or 16',
  24: 'output too short',
});

/**
 * A refusal in words, by its number.
 * @param {number} number
 * @returns {string}
 */
export const words = (number) => WORDS[number] ?? 'no refusal of this library';

/**
 * What a function returned, taken apart; the place has a meaning for 4 to 8.
 * @param {number} returned
 * @returns {Refusal}
 */
function refusalOf(returned) {
  const number = returned & 255;
  return { number, place: number >= 4 && number <= 8 ? returned >>> 8 : null, words: words(number) };
}

/** A call that was refused because of what the caller gave. It changed nothing. */
export class RefusalError extends Error {
  /** @param {number} returned what the function of the library returned */
  constructor(returned) {
    const { number, words } = refusalOf(returned);
    super(`refusal ${number}: ${words}`);
    this.name = 'RefusalError';
    this.number = number;
  }
}

/** The module trapped. What trapped can't be used again: make a new one, and restore what was saved last. */
export class TrapError extends Error {
  /**
   * @param {string} message
   * @param {unknown} cause
   */
  constructor(message, cause) {
    super(message, { cause });
    this.name = 'TrapError';
    /**
     * Bundles handed out before the trap: by the same frame, or by the bursts of the same list that had come to their answer.
     * @type {Bundle[]}
     */
    this.bundles = [];
  }
}

/**
 * Whether this engine runs wasm64 modules.
 * @returns {boolean}
 */
export const hasMemory64 = () => WebAssembly.validate(Uint8Array.of(0, 97, 115, 109, 1, 0, 0, 0, 5, 3, 1, 4, 0));

/**
 * Compiles the module, once for any number of receivers and senders.
 * @param {Source} [source] the module or where it is; btpu.wasm beside this file if not given
 * @returns {Promise<WebAssembly.Module>}
 */
export async function load(source) {
  let from = await (source ?? new URL('btpu.wasm', import.meta.url));
  if (typeof from === 'string') from = new URL(from, typeof document === 'undefined' ? import.meta.url : document.baseURI);
  if (from instanceof URL) {
    const inNode = from.protocol === 'file:' && typeof process !== 'undefined';
    from = inNode ? await (await import('node:fs/promises')).readFile(from) : await fetch(from);
  }
  if (typeof Response !== 'undefined' && from instanceof Response) {
    if (!from.ok) throw new Error(`the module was not loaded: ${from.status} ${from.statusText}`);
    from = await from.arrayBuffer();
  }
  const module = from instanceof WebAssembly.Module ? from : await WebAssembly.compile(/** @type {BufferSource} */ (from));
  const exported = new Set(WebAssembly.Module.exports(module).map((e) => e.name));
  const missing = EXPORTS.filter((name) => !exported.has(name));
  if (missing.length > 0) throw new TypeError(`not a btpu module: it lacks ${missing.join(', ')}`);
  if (WebAssembly.Module.imports(module).length > 0) throw new TypeError('not a btpu module: it imports something');
  return module;
}

/** @param {Source} [source] */
const instantiate = async (source) => WebAssembly.instantiate(await load(source));

/** The functions that start a receiver, with a window, or a sender, by draft. */
const STARTS = {
  receiver: { '00': 'btpu_receiver_start_00', '02': 'btpu_receiver_start_window' },
  sender: { '00': 'btpu_sender_start_00', '02': 'btpu_sender_start' },
};

/**
 * The name of the function that starts a receiver or a sender of a draft.
 * @param {'receiver' | 'sender'} which
 * @param {Draft} draft
 */
function startOf(which, draft) {
  if (draft !== '00' && draft !== '02') throw new RangeError("a draft is '00' or '02'");
  return STARTS[which][draft];
}

/**
 * Whether this is what a receiver is set to, and no source: no source is a plain object.
 * @param {unknown} value
 * @returns {value is ReceiverStart}
 */
const isStart = (value) => Object.prototype.toString.call(value) === '[object Object]';

/**
 * The draft of a sound image.
 * @param {Lent} image
 * @param {number} at
 * @returns {Draft}
 */
const draftOf = (image, at) => (image.octets[at] === 1 ? '00' : '02');

/**
 * Octets as a Uint8Array; anything else is an error, and no empty frame.
 * @param {unknown} value
 * @param {string} what
 */
function octetsOf(value, what) {
  if (value instanceof Uint8Array) return value;
  if (ArrayBuffer.isView(value)) return new Uint8Array(value.buffer, value.byteOffset, value.byteLength);
  if (value instanceof ArrayBuffer) return new Uint8Array(value);
  throw new TypeError(`${what} is a Uint8Array, another view or an ArrayBuffer, and not ${value === null ? 'null' : typeof value}`);
}

/**
 * Parts of what was saved.
 * @param {unknown} saved
 * @param {string[]} names
 */
function partsOf(saved, names) {
  if (saved === null || typeof saved !== 'object') throw new TypeError(`what was saved is an object with ${names.join(' and ')}`);
  return names.map((name) => octetsOf(/** @type {Record<string, unknown>} */ (saved)[name], name));
}

/**
 * @param {Uint8Array} octets
 * @param {number} length
 * @param {string} what
 */
function hasLength(octets, length, what) {
  if (octets.length !== length) throw new RangeError(`${what} has ${octets.length} octets, not ${length}`);
}

/**
 * @param {unknown} value
 * @param {number} most
 * @param {string} what
 */
function wholeNumber(value, most, what) {
  if (!Number.isInteger(value) || /** @type {number} */ (value) < 0 || /** @type {number} */ (value) > most) {
    throw new RangeError(`${what} is a whole number from 0 to ${most}`);
  }
}

/**
 * Octets cut into parts of these lengths.
 * @param {Uint8Array} octets
 * @param {Iterable<number>} lengths
 */
function cut(octets, lengths) {
  const parts = [];
  let at = 0;
  for (const length of lengths) parts.push(octets.slice(at, (at += length)));
  return parts;
}

/**
 * @param {number} number as the library tells it
 * @param {Uint8Array} octets
 * @returns {Bundle}
 */
const bundleOf = (number, octets) => ({ number: number === NO_NUMBER ? null : number, octets });

/** One instance of the module and the memory that it is lent. */
class Machine {
  /** @type {Record<string, any>} */ #exports;
  /** @type {WebAssembly.Memory} */ #memory;
  /** @type {Lent[]} */ #lent = [];
  /** @type {number} */ #free;
  /** @type {(address: number) => number | bigint} */ #pointer;
  /** @type {unknown} */ #trap = null;
  /** @type {Lent} */ #result;
  /** @type {DataView} */ view;

  /** @param {WebAssembly.Instance} instance */
  constructor(instance) {
    this.#exports = instance.exports;
    this.#memory = this.#exports.memory;
    this.view = new DataView(this.#memory.buffer);
    const base = this.#exports.__heap_base.value;
    this.#pointer = typeof base === 'bigint' ? BigInt : Number; // of a wasm64 module addresses are BigInt
    this.#free = Number(base);
    this.#result = this.lend(RESULT);
  }

  /**
   * Lends octets that nothing else uses, above the module's stack and data, aligned to 16. The memory grows where they need it.
   * @param {number} size
   * @returns {Lent}
   */
  lend(size) {
    const at = (this.#free + 15) & ~15, lacking = at + size - this.#memory.buffer.byteLength;
    if (lacking > 0) this.#grow(Math.ceil(lacking / PAGE));
    const lent = { at, size, octets: new Uint8Array(this.#memory.buffer, at, size), pointer: this.#pointer(at) };
    this.#free = at + size;
    this.#lent.push(lent);
    return lent;
  }

  /**
   * Makes the memory longer, and anew the views of it, which that ends.
   * @param {number} pages
   */
  #grow(pages) {
    try {
      this.#memory.grow(/** @type {number} */ (this.#pointer(pages)));
    } catch (e) {
      // Before memories with 64-bit addresses had their final form, they took a Number too.
      if (!(e instanceof TypeError)) throw new RangeError(`the module's memory can't grow by ${pages * PAGE} octets`, { cause: e });
      this.#memory.grow(pages);
    }
    this.view = new DataView(this.#memory.buffer);
    for (const lent of this.#lent) lent.octets = new Uint8Array(this.#memory.buffer, lent.at, lent.size);
  }

  /**
   * An entry of the result: all have a meaning below 2 to the 53.
   * @param {number} entry
   */
  result(entry) {
    return Number(this.view.getBigUint64(this.#result.at + 8 * entry, true));
  }

  get resultPointer() {
    return this.#result.pointer;
  }

  /**
   * The first entries of a list.
   * @param {Lent} lent
   * @param {2 | 4 | 8} octets of an entry; all entries are below 2 to the 53
   * @param {number} count
   */
  list({ at }, octets, count) {
    const view = this.view, entries = [];
    for (let k = at; k < at + octets * count; k += octets) {
      if (octets === 8) entries.push(Number(view.getBigUint64(k, true)));
      else entries.push(octets === 2 ? view.getUint16(k, true) : view.getUint32(k, true));
    }
    return entries;
  }

  /**
   * Frames refused, as two lists tell of them.
   * @param {Lent} places
   * @param {Lent} reasons
   * @param {number} count
   */
  refused(places, reasons, count) {
    const numbers = this.list(reasons, 4, count);
    return this.list(places, 4, count).map((frame, k) => ({ frame, number: numbers[k], words: words(numbers[k]) }));
  }

  get broken() {
    return this.#trap !== null;
  }

  usable() {
    if (this.#trap !== null) throw new TrapError('the module trapped before: make a new one, and restore what was saved last', this.#trap);
  }

  /**
   * Calls an exported function and answers what it returned. Lengths, places and limits go as BigInt, whatever the addresses.
   * @param {string} name
   * @param {(number | bigint)[]} words
   */
  call(name, ...words) {
    this.usable();
    try {
      return this.#exports[name](...words) >>> 0;
    } catch (e) {
      // The module's stack pointer and the lent memory stay as they were in mid-call.
      this.#trap = e;
      throw new TrapError(`the module trapped: ${e instanceof Error ? e.message : e}`, e);
    }
  }

  /**
   * A call whose refusal is an error.
   * @param {string} name
   * @param {(number | bigint)[]} words
   */
  must(name, ...words) {
    const returned = this.call(name, ...words);
    if (returned !== 0) throw new RefusalError(returned);
  }
}

const PHASES = /** @type {const} */ (['free', 'open', 'done', 'cancelled', 'given up']);

/**
 * The window of a receiver's image: the greatest number, and as many rows as the window has. The image is taken to be a sound one.
 * @param {Uint8Array} image
 * @returns {import('./btpu.mjs').Window}
 */
export function readWindow(image) {
  if (image.length !== SIZES.receiverImage) throw new RangeError(`an image has ${SIZES.receiverImage} octets`);
  const view = new DataView(image.buffer, image.byteOffset, image.byteLength), size = image[RECEIVER_WINDOW];
  if (![4, 8, 16].includes(size)) throw new RangeError('the window of an image is 4, 8 or 16');
  const greatest = image[0] === 1 ? view.getUint32(4) : null;
  const rows = Array.from({ length: size }, (_, row) => {
    const at = 8 + 196 * row;
    return {
      row,
      // of the numbers of the window, the one with this row: sizes are powers of 2
      number: greatest === null ? null : (greatest - ((greatest - row) & (size - 1))) >>> 0,
      phase: PHASES[image[at]],
      last: image[at + 1] === 1 ? image[at + 2] : null,
      pieces: Array.from({ length: image[at + 3] }, (_, k) => ({ index: image[at + 4 + k], length: view.getUint16(at + 68 + 2 * k) })),
    };
  });
  return { greatest, rows };
}

/** Takes frames, in any order and with losses, and hands bundles out. */
export class Receiver {
  /** @type {Machine} */ #machine;
  /** @type {Lent} */ #image;
  /** @type {Lent} */ #pool;
  /** @type {Lent} */ #frame;
  /** @type {Lent} */ #output;
  /**
   * What bursts are lent besides, from the first one on.
   * @type {Record<'sizes' | 'octets' | 'output' | 'lengths' | 'numbers' | 'places' | 'reasons', Lent> | null}
   */
  #burst = null;

  /**
   * @param {ReceiverStart | Source} [start] what the receiver is set to; may be left out before a source
   * @param {Source} [source] as for load
   * @returns {Promise<Receiver>}
   */
  static async create(start = {}, source) {
    if (isStart(start)) return new Receiver(await instantiate(source), start);
    if (source !== undefined) throw new TypeError("what stands before the source is an object, as { draft: '00', window: 16 }");
    return new Receiver(await instantiate(start));
  }

  /**
   * @param {WebAssembly.Instance} instance of the module, used by nothing else
   * @param {ReceiverStart} [start]
   */
  constructor(instance, start = {}) {
    const { draft = '02', window = SIZES.plainWindow } = start;
    const machine = this.#machine = new Machine(instance);
    this.#image = machine.lend(SIZES.receiverImage);
    // What is no number of 32 bits goes as 0, and is refused as that is.
    this.#start(draft, Number.isInteger(window) && window > 0 && window <= 0xffffffff ? window : 0);
    this.#frame = machine.lend(SIZES.frame + 1);
    this.#output = machine.lend(SIZES.output);
    this.#pool = machine.lend(this.#poolSize);
  }

  /** Whether a trap ended the use of this receiver. */
  get broken() {
    return this.#machine.broken;
  }

  /** The draft of the frames that this receiver takes. */
  get draft() {
    return draftOf(this.#image, RECEIVER_DRAFT);
  }

  /**
   * How many transfers the window has.
   * @returns {WindowSize}
   */
  get windowSize() {
    return /** @type {WindowSize} */ (this.#image.octets[RECEIVER_WINDOW]);
  }

  get #poolSize() {
    return SIZES.poolPerRow * this.windowSize;
  }

  /** Forgets all that was received; draft and window stay. */
  restart() {
    this.#start(this.draft, this.windowSize);
    this.#pool.octets.fill(0);
  }

  /**
   * @param {Draft} draft
   * @param {number} window
   */
  #start(draft, window) {
    this.#machine.must(startOf('receiver', draft), this.#image.pointer, window | 0);
  }

  /**
   * Takes a frame to its end. A refused frame changes nothing.
   * @param {Octets} frame
   * @returns {{ bundles: Bundle[], refusal: Refusal | null }} the bundles in the order in which they were handed out
   */
  receive(frame) {
    this.#machine.usable();
    const octets = octetsOf(frame, 'a frame');
    // One octet more than a frame may have is enough for the library to refuse it.
    const length = Math.min(octets.length, SIZES.frame + 1);
    this.#frame.octets.set(octets.subarray(0, length));
    /** @type {Bundle[]} */ const bundles = [];
    let place = 0;
    do {
      const returned = this.#call('btpu_receive', bundles, this.#frame.pointer, BigInt(length), BigInt(place),
        this.#output.pointer, BigInt(SIZES.output));
      if (returned !== 0) return { bundles, refusal: refusalOf(returned) };
      if (this.#machine.result(0) === FINISHED) break;
      bundles.push(bundleOf(this.#machine.result(3), this.#output.octets.slice(0, this.#machine.result(1))));
      place = this.#machine.result(2);
    } while (place < length); // a call at the frame's end treats nothing
    return { bundles, refusal: null };
  }

  /**
   * Takes frames to their ends, one after another, with the same result as `receive` for each of them, in fewer calls of the module.
   * If there is anything but frames among them, none is taken.
   * @param {Iterable<Octets>} frames
   * @returns {import('./btpu.mjs').Received}
   */
  receiveAll(frames) {
    this.#machine.usable();
    /** @type {Uint8Array[]} */ const list = [];
    // Copied, since the frames may come one after another in the same buffer. A frame that is too long goes with 2,049 of its octets,
    // and is refused with 3 for that.
    for (const frame of frames) list.push(new Uint8Array(octetsOf(frame, 'a frame').subarray(0, SIZES.frame + 1)));
    /** @type {import('./btpu.mjs').Received} */ const received = { bundles: [], refused: [] };
    for (let first = 0; first < list.length; first += SIZES.burstFrames) {
      this.#receiveBurst(list.slice(first, first + SIZES.burstFrames), first, received);
    }
    return received;
  }

  /**
   * Takes a burst to its end: each call goes on where the one before stopped.
   * @param {Uint8Array[]} frames
   * @param {number} first the place of the first of them in the list
   * @param {import('./btpu.mjs').Received} received
   */
  #receiveBurst(frames, first, { bundles, refused }) {
    const machine = this.#machine, { sizes, octets, output, lengths, numbers, places, reasons } = (this.#burst ??= this.#lendBurst());
    let total = 0, frame = 0, place = 0;
    frames.forEach((given, k) => {
      machine.view.setUint16(sizes.at + 2 * k, given.length, true);
      octets.octets.set(given, total);
      total += given.length;
    });
    do {
      const returned = this.#call('btpu_receive_burst', bundles, sizes.pointer, BigInt(frames.length), octets.pointer, BigInt(total),
        BigInt(frame), BigInt(place), output.pointer, BigInt(BURST_OUTPUT),
        lengths.pointer, numbers.pointer, places.pointer, reasons.pointer);
      if (returned !== 0) throw new RefusalError(returned);
      const [count, , next, nextPlace, passed] = [0, 1, 2, 3, 4].map((entry) => machine.result(entry));
      const named = machine.list(numbers, 8, count);
      cut(output.octets, machine.list(lengths, 2, count)).forEach((bundle, k) => bundles.push(bundleOf(named[k], bundle)));
      for (const one of machine.refused(places, reasons, passed)) refused.push({ ...one, frame: first + one.frame });
      [frame, place] = [next, nextPlace];
    } while (frame < frames.length);
  }

  #lendBurst() {
    const machine = this.#machine;
    return {
      sizes: machine.lend(2 * SIZES.burstFrames),
      octets: machine.lend((SIZES.frame + 1) * SIZES.burstFrames),
      output: machine.lend(BURST_OUTPUT),
      lengths: machine.lend(2 * SIZES.burstBundles),
      numbers: machine.lend(8 * SIZES.burstBundles),
      places: machine.lend(4 * SIZES.burstFrames),
      reasons: machine.lend(4 * SIZES.burstFrames),
    };
  }

  /**
   * Calls a function with image, pool, words and result. If it traps, the error carries the bundles handed out before.
   * @param {string} name
   * @param {Bundle[]} bundles
   * @param {(number | bigint)[]} words
   */
  #call(name, bundles, ...words) {
    const machine = this.#machine;
    try {
      return machine.call(name, this.#image.pointer, this.#pool.pointer, BigInt(this.#poolSize), ...words, machine.resultPointer);
    } catch (e) {
      if (e instanceof TrapError) e.bundles = bundles;
      throw e;
    }
  }

  /** The greatest transfer number so far and the rows of the window. */
  window() {
    this.#machine.usable();
    return readWindow(this.#image.octets);
  }

  /**
   * All that a receiver is, copied, to be stored. Store it in one piece with what was made of the bundles: a transfer that is
   * done is not handed out again.
   */
  save() {
    this.#machine.usable();
    return { image: this.#image.octets.slice(), pool: this.#pool.octets.slice(0, this.#poolSize) };
  }

  /**
   * Goes on from what was saved, and with its draft and its window. An image that is no sound state, as one that was saved before windows
   * could be chosen, is refused; that, and a pool of another length than its window asks for, changes nothing.
   * @param {{ image: Octets, pool: Octets }} saved
   */
  restore(saved) {
    const [image, pool] = partsOf(saved, ['image', 'pool']);
    hasLength(image, SIZES.receiverImage, 'image');
    const kept = this.save().image;
    try {
      this.#image.octets.set(image);
      this.#machine.must('btpu_receiver_check', this.#image.pointer);
      hasLength(pool, this.#poolSize, 'pool');
      if (this.#pool.size < this.#poolSize) this.#pool = this.#machine.lend(this.#poolSize);
    } catch (e) {
      this.#image.octets.set(kept);
      throw e;
    }
    this.#pool.octets.set(pool);
  }
}

/** Fills frames of one size with bundles, whole or in pieces. */
export class Sender {
  /** @type {Machine} */ #machine;
  /** @type {Lent} */ #image;
  /** @type {Lent} */ #frame;
  /** @type {Lent} */ #bundle;
  /**
   * The bundle begun, where it is known.
   * @type {Uint8Array | null}
   */
  #begun = null;

  /**
   * @param {SenderStart} start
   * @param {Source} [source] as for load
   * @returns {Promise<Sender>}
   */
  static async create(start, source) {
    return new Sender(await instantiate(source), start);
  }

  /**
   * @param {WebAssembly.Instance} instance of the module, used by nothing else
   * @param {SenderStart} start
   */
  constructor(instance, { frameSize, firstNumber, draft = '02' }) {
    wholeNumber(frameSize, Number.MAX_SAFE_INTEGER, 'a frame size');
    wholeNumber(firstNumber, 0xffffffff, 'a transfer number');
    const machine = this.#machine = new Machine(instance);
    this.#image = machine.lend(SIZES.senderImage);
    machine.must(startOf('sender', draft), this.#image.pointer, BigInt(frameSize), firstNumber | 0);
    this.#frame = machine.lend(frameSize);
    this.#bundle = machine.lend(SIZES.bundle + 1);
  }

  /** Whether a trap ended the use of this sender. */
  get broken() {
    return this.#machine.broken;
  }

  /** The draft of the frames that this sender fills. */
  get draft() {
    return draftOf(this.#image, SENDER_DRAFT);
  }

  get frameSize() {
    return this.#frame.size;
  }

  /** Octets of the frame that is being filled. */
  get fill() {
    return this.#machine.view.getUint16(this.#image.at + 2);
  }

  /** The number that the next transfer gets. */
  get nextNumber() {
    return this.#machine.view.getUint32(this.#image.at + 4);
  }

  /** Whether a transfer is begun: some of its pieces are placed, and not all. */
  get begun() {
    return this.#image.octets[8] === 1;
  }

  /**
   * Places a bundle to its end.
   * @param {Octets} bundle 1 to 4,096 octets
   * @returns {Uint8Array[]} the frames that became full: send them
   */
  send(bundle) {
    const frames = [];
    for (;;) {
      const { ended, frame } = this.place(bundle);
      if (frame !== null) frames.push(frame);
      if (ended) return frames;
    }
  }

  /**
   * One call: adds at most one message of the bundle, or closes the frame. Call again with the same bundle until it is at its end, or
   * cancel it.
   * @param {Octets} bundle
   * @returns {{ ended: boolean, frame: Uint8Array | null }} a frame that became full: send it
   */
  place(bundle) {
    this.#machine.usable();
    const octets = octetsOf(bundle, 'a bundle');
    // The library sees another length than that of the transfer begun, but not other octets.
    const begun = this.#begun;
    if (begun !== null && begun.length === octets.length && begun.some((x, k) => x !== octets[k])) {
      throw new RangeError('not the bundle whose transfer is begun');
    }
    const length = Math.min(octets.length, SIZES.bundle + 1);
    this.#bundle.octets.set(octets.subarray(0, length));
    const { placed, frame } = this.#call('btpu_place', this.#bundle.pointer, BigInt(length));
    this.#begun = this.begun ? begun ?? new Uint8Array(octets) : null; // a copy, of a Buffer too
    return { ended: placed && !this.begun, frame };
  }

  /** Gives up the transfer begun, and tells the receivers so. */
  cancel() {
    this.#call('btpu_cancel');
    this.#begun = null;
  }

  /**
   * Closes the frame that is being filled.
   * @returns {Uint8Array | null} the frame, if there was one: send it
   */
  flush() {
    return this.#call('btpu_flush').frame;
  }

  /** All that a sender is, copied, to be stored. A bundle whose transfer is begun belongs to the caller, and is not in it. */
  save() {
    this.#machine.usable();
    return { image: this.#image.octets.slice(), frame: this.#frame.octets.slice() };
  }

  /**
   * Goes on from what a sender of the same frame size saved, and with its draft. An image that is no sound state is refused, and changes
   * nothing.
   * @param {{ image: Octets, frame: Octets }} saved
   */
  restore(saved) {
    const [image, frame] = partsOf(saved, ['image', 'frame']);
    hasLength(image, SIZES.senderImage, 'image');
    hasLength(frame, this.frameSize, 'frame');
    const kept = this.save().image;
    this.#image.octets.set(image);
    const returned = this.#machine.call('btpu_sender_check', this.#image.pointer);
    const size = this.#machine.view.getUint16(this.#image.at);
    if (returned !== 0 || size !== this.frameSize) {
      this.#image.octets.set(kept);
      throw returned !== 0 ? new RefusalError(returned) : new RangeError(`saved with frames of ${size} octets, not ${this.frameSize}`);
    }
    this.#frame.octets.set(frame);
    this.#begun = null;
  }

  /**
   * @param {string} name
   * @param {(number | bigint)[]} bundle
   */
  #call(name, ...bundle) {
    this.#machine.must(name, this.#image.pointer, ...bundle, this.#frame.pointer, BigInt(this.frameSize), this.#machine.resultPointer);
    const answer = this.#machine.result(0);
    const ready = answer === PLACED_AND_READY || answer === READY;
    return { placed: answer === PLACED || answer === PLACED_AND_READY, frame: ready ? this.#frame.octets.slice() : null };
  }
}

/**
 * Writes, opens and plays recordings: frames in order, at most 1,024 with at most 61,440 octets. A recording has no draft, and a playback
 * takes its frames for frames of draft 02, with a window of 16.
 */
export class Recorder {
  /** @type {Machine} */ #machine;
  /** @type {Lent} */ #recording;
  /** @type {Lent} */ #sizes;
  /** @type {Lent} */ #pool;
  /** @type {Lent} */ #output;
  /** @type {Lent} */ #lengths;
  /** @type {Lent} */ #places;
  /** @type {Lent} */ #reasons;

  /**
   * @param {Source} [source] as for load
   * @returns {Promise<Recorder>}
   */
  static async create(source) {
    return new Recorder(await instantiate(source));
  }

  /** @param {WebAssembly.Instance} instance of the module, used by nothing else */
  constructor(instance) {
    const machine = this.#machine = new Machine(instance);
    this.#recording = machine.lend(SIZES.recording + 1);
    this.#sizes = machine.lend(2 * SIZES.recordedFrames + 2);
    this.#pool = machine.lend(SIZES.poolPerRow * SIZES.playWindow);
    this.#output = machine.lend(SIZES.recordedOctets + 1);
    this.#lengths = machine.lend(2 * SIZES.playedBundles);
    this.#places = machine.lend(4 * SIZES.recordedFrames);
    this.#reasons = machine.lend(4 * SIZES.recordedFrames);
  }

  /** Whether a trap ended the use of this recorder. */
  get broken() {
    return this.#machine.broken;
  }

  /**
   * A recording of these frames, in this order.
   * @param {Iterable<Octets>} frames
   * @returns {Uint8Array}
   */
  record(frames) {
    const list = [...frames].map((frame) => octetsOf(frame, 'a frame'));
    const count = Math.min(list.length, SIZES.recordedFrames + 1), octets = this.#output.octets;
    let total = 0;
    list.slice(0, count).forEach((frame, k) => {
      // What is left out is beyond the limits, and refused for that.
      this.#machine.view.setUint16(this.#sizes.at + 2 * k, Math.min(frame.length, 0xffff), true);
      const part = frame.subarray(0, octets.length - total);
      octets.set(part, total);
      total += part.length;
    });
    this.#machine.must('btpu_record', this.#sizes.pointer, BigInt(count), this.#output.pointer, BigInt(total),
      this.#recording.pointer, BigInt(SIZES.recording), this.#machine.resultPointer);
    return this.#recording.octets.slice(0, this.#machine.result(0));
  }

  /**
   * The frames of a recording, which is checked as a whole.
   * @param {Octets} recording
   * @returns {Uint8Array[]}
   */
  open(recording) {
    const length = this.#take(recording);
    this.#machine.must('btpu_recording_open', this.#recording.pointer, BigInt(length), this.#sizes.pointer, this.#machine.resultPointer);
    const [frames, octets, start] = [0, 1, 2].map((entry) => this.#machine.result(entry));
    return cut(this.#recording.octets.subarray(start, start + octets), this.#machine.list(this.#sizes, 2, frames));
  }

  /**
   * Plays a recording on a fresh receiver of draft 02 with a window of 16 until `messages` messages are treated, or to its end. A run of
   * padding counts as one message; a refused frame has none.
   * @param {Octets} recording
   * @param {{ messages?: number }} [limit]
   * @returns {import('./btpu.mjs').Playback}
   */
  play(recording, limit = {}) {
    const { messages = Infinity } = limit;
    if (messages !== Infinity) wholeNumber(messages, Number.MAX_SAFE_INTEGER, 'a number of messages');
    const length = this.#take(recording), machine = this.#machine;
    const most = messages === Infinity ? 2n ** 64n - 1n : BigInt(messages);
    machine.must('btpu_play', this.#recording.pointer, BigInt(length), most, this.#pool.pointer, BigInt(this.#pool.size),
      this.#output.pointer, BigInt(SIZES.recordedOctets), this.#lengths.pointer, BigInt(SIZES.playedBundles),
      this.#places.pointer, BigInt(SIZES.recordedFrames), this.#reasons.pointer, BigInt(SIZES.recordedFrames), machine.resultPointer);
    return {
      messages: machine.result(0),
      bundles: cut(this.#output.octets, machine.list(this.#lengths, 2, machine.result(1))),
      refused: machine.refused(this.#places, this.#reasons, machine.result(3)),
    };
  }

  /** @param {Octets} recording */
  #take(recording) {
    this.#machine.usable();
    const octets = octetsOf(recording, 'a recording');
    // One octet more than a recording may have is enough for the library to refuse it.
    const length = Math.min(octets.length, SIZES.recording + 1);
    this.#recording.octets.set(octets.subarray(0, length));
    return length;
  }
}
