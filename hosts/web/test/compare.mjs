// Runs the operations of a test on a WebAssembly module's exports, and compares each call with what the native library answered:
// the number returned, and the octets of the arena. For node and browsers.
import { BURST, FUNCTIONS, NONE, OP, PLACE, WINDOW } from './arena.mjs';

/** Octets of the images: the draft of a receiver, whether a sender has a transfer begun, and its draft. */
const RECEIVER_DRAFT = 2, SENDER_BEGUN = 8, SENDER_DRAFT = 9;
const NO_NUMBER = 2n ** 32n;
const ANSWERING = ['btpu_receive', 'btpu_receive_burst', 'btpu_place', 'btpu_cancel', 'btpu_flush'];

/** The module's stack, at the bottom of its memory. */
export const STACK = 196608;
const UNUSED = 0x5a;
/** Octets of the memory behind the arena, of which none may change. */
const BEHIND = 4096;

/** Makes a module's memory grow where it has fewer octets. */
export function withRoom(memory, octets) {
  const pages = Math.ceil((octets - memory.buffer.byteLength) / 65536);
  if (pages <= 0) return;
  try {
    memory.grow(pages);
  } catch (e) {
    if (!(e instanceof TypeError)) throw e;
    memory.grow(BigInt(pages)); // of one with 64-bit addresses, in engines that have their final form
  }
}

/** The parameters of the functions that take frames: where they are lent, and how many octets. */
const FRAMES = { btpu_receive: [3, 4], btpu_receive_burst: [5, BURST.octets], btpu_play: [0, 1] };
/** The header of a message that fills the greatest frame with the longest chain of hints, and how many these are. */
const LONGEST = [2, 128, 7, 252], HINTS = 1022;

/** Whether that message lies anywhere in octets. */
function holdsLongest(octets) {
  for (let end = octets.indexOf(LONGEST[3]); end >= 0; end = octets.indexOf(LONGEST[3], end + 1)) {
    if (end < 3 || !LONGEST.every((octet, k) => octets[end - 3 + k] === octet)) continue;
    let hints = 0;
    while (octets[end + 1 + 2 * hints] === (hints < HINTS - 1 ? 3 : 2) && octets[end + 2 + 2 * hints] === 0) hints++;
    if (hints >= HINTS) return true;
  }
  return false;
}

/** Reads little-endian numbers one behind another. */
class Reader {
  #view;
  at = 0;

  constructor(octets) {
    this.octets = octets;
    this.#view = new DataView(octets.buffer, octets.byteOffset, octets.byteLength);
  }

  u8() {
    return this.#view.getUint8(this.at++);
  }

  u32() {
    this.at += 4;
    return this.#view.getUint32(this.at - 4, true);
  }

  u64() {
    this.at += 8;
    return this.#view.getBigUint64(this.at - 8, true);
  }

  take(length) {
    this.at += length;
    return this.octets.subarray(this.at - length, this.at);
  }

  get ended() {
    return this.at >= this.octets.length;
  }
}

/** One comparison: the module's arena, and a second arena that the native answers are applied to. */
class Comparison {
  difference = null;
  frames = 0;
  calls = 0;
  bundles = 0;
  /** By function: how often each refusal was given, and each answer. */
  refusals = Object.fromEntries(FUNCTIONS.map(([name]) => [name, {}]));
  answers = Object.fromEntries(ANSWERING.map((name) => [name, {}]));
  /** By number: how often a frame of a burst was passed over for this refusal. */
  passed = {};
  /** In draft 00: transfers handed out by btpu_receive, and calls of btpu_place after which a transfer is begun. */
  draft00 = { received: 0, begun: 0 };
  /** By window: transfers handed out by btpu_receive. */
  windows = { 4: 0, 8: 0, 16: 0 };
  /** Octets of the stack used at most by the calls of each kind of section, and how many of them were lent the longest chain of hints. */
  stack = [0, 0, 0];
  longest = [0, 0, 0];
  #section = 0;
  #returned = 0;

  constructor(instance, operations, answers) {
    this.operations = new Reader(operations);
    this.native = new Reader(answers);
    const [arena, near, result] = [this.operations.u32(), this.operations.u32(), this.operations.u32()];
    const { memory, __heap_base: base } = instance.exports;
    this.exports = instance.exports;
    this.pointer = typeof base.value === 'bigint' ? BigInt : Number;
    this.from = (Number(base.value) + 63) & ~63;
    withRoom(memory, this.from + arena + BEHIND);
    this.memory = new Uint8Array(memory.buffer);
    this.arena = this.memory.subarray(this.from, this.from + arena);
    this.expected = new Uint8Array(arena);
    this.words = new Uint32Array(memory.buffer, this.from, arena / 4);
    this.expectedWords = new Uint32Array(this.expected.buffer);
    this.near = near / 4;
    this.view = new DataView(memory.buffer);
    this.result = new DataView(memory.buffer, this.from + result, 40);
    this.data = this.memory.slice(STACK, this.from);
    this.memory.fill(UNUSED, 0, STACK);
  }

  all() {
    while (!this.operations.ended && this.difference === null) this.#operation(this.operations.u8());
    this.#measure();
    if (this.difference === null) this.#compare(this.words.length);
    if (this.difference === null && !this.native.ended) this.difference = 'there are more answers than calls';
    if (this.difference === null) this.#outside();
    const { difference, frames, calls, bundles, refusals, answers, passed, draft00, windows, stack, longest } = this;
    return { difference, frames, calls, bundles, refusals, answers, passed, draft00, windows, stack, longest };
  }

  #operation(operation) {
    const { operations } = this;
    if (operation === OP.call || operation === OP.whole) return this.#call(operation === OP.whole);
    if (operation === OP.section) return this.#begin(operations.u8());
    const at = operations.u32();
    if (operation === OP.put) {
      const octets = operations.take(operations.u32());
      this.arena.set(octets, at);
      this.expected.set(octets, at);
    } else if (operation === OP.fill) {
      const length = operations.u32(), octet = operations.u8();
      this.arena.fill(octet, at, at + length);
      this.expected.fill(octet, at, at + length);
    } else if (operation === OP.turn || operation === OP.turnBack) {
      const bits = operation === OP.turn || this.#returned !== 0 ? operations.u8() : operations.u8() & 0;
      this.arena[at] ^= bits;
      this.expected[at] ^= bits;
    } else {
      throw new Error(`no operation ${operation}`);
    }
  }

  #call(whole) {
    const which = this.operations.u8(), count = this.operations.u8();
    const numbers = Array.from({ length: count }, () => this.operations.u64());
    const [name, kinds] = FUNCTIONS[which];
    const words = numbers.map((n, k) => this.#word(kinds[k], n));
    if (name === 'btpu_receive') this.frames++;
    if (name in FRAMES) {
      const [at, length] = FRAMES[name].map((k) => Number(words[k]));
      if (holdsLongest(this.memory.subarray(at, at + length))) this.longest[this.#section]++;
    }
    for (;;) {
      try {
        this.#returned = this.exports[name](...words) >>> 0;
      } catch (e) {
        this.difference = `call ${this.calls + 1}, ${name}: ${e}`;
        return;
      }
      this.#hold(which);
      if (this.difference !== null) return;
      const burst = name === 'btpu_receive_burst', answer = this.#answer(burst, words);
      this.#count(which, answer);
      if (burst && answer !== null) this.#countBurst(words);
      this.#countTransfer(name, answer, this.memory.subarray(Number(words[0])));
      if (!whole || answer === null || answer === 0 || (!burst && answer !== 1)) return;
      if (burst) [words[BURST.frame], words[BURST.place]] = [this.result.getBigUint64(16, true), this.result.getBigUint64(24, true)];
      else words[PLACE] = this.result.getBigUint64(16, true);
    }
  }

  /** The answer in the result; of a burst 0 if all frames are taken, 1 if it stopped at 256 bundles, 2 if it did for want of output. */
  #answer(burst, words) {
    if (this.#returned !== 0) return null;
    const first = this.result.getUint32(0, true);
    if (!burst) return first;
    return this.result.getBigUint64(16, true) === words[BURST.frames] ? 0 : first === 256 ? 1 : 2;
  }

  #countBurst(words) {
    this.bundles += this.result.getUint32(0, true);
    for (let k = 0; k < this.result.getUint32(32, true); k++) {
      const number = this.view.getUint32(Number(words[BURST.reasons]) + 4 * k, true);
      this.passed[number] = (this.passed[number] ?? 0) + 1;
    }
  }

  #countTransfer(name, answer, image) {
    const { draft00, windows } = this;
    const received = name === 'btpu_receive' && answer === 1 && this.result.getBigUint64(24, true) !== NO_NUMBER;
    if (received && image[RECEIVER_DRAFT] === 1) draft00.received++;
    if (received) windows[image[WINDOW]]++;
    if (name === 'btpu_place' && answer !== null && image[SENDER_DRAFT] === 1) draft00.begun += image[SENDER_BEGUN];
  }

  #word(kind, n) {
    if (kind === 'n') return n;
    if (kind === 'w') return Number(n) | 0;
    return this.pointer(n === BigInt(NONE) ? 0 : this.from + Number(n));
  }

  #count(which, answer) {
    const refusal = this.#returned & 255;
    const name = FUNCTIONS[which][0];
    if (refusal !== 0) this.refusals[name][refusal] = (this.refusals[name][refusal] ?? 0) + 1;
    else if (name in this.answers) this.answers[name][answer] = (this.answers[name][answer] ?? 0) + 1;
    if (name === 'btpu_receive' && answer === 1) this.bundles++;
  }

  /** Applies the next native answer and compares. */
  #hold(which) {
    const { native } = this;
    this.calls++;
    const returned = native.u32();
    for (let runs = native.u32(); runs > 0; runs--) {
      const at = native.u32(), length = native.u32();
      this.expected.set(native.take(length), at);
    }
    if (returned !== this.#returned) {
      this.difference = `call ${this.calls}, ${FUNCTIONS[which][0]}: returned ${this.#returned}, natively ${returned}`;
      return;
    }
    // A receiver's or a sender's call is lent nothing of the far part, and no operation of their sections writes there. So what
    // such a call wrote there by fault still stands at the section's end, where all is compared.
    this.#compare(this.#section === 0 ? this.near : this.words.length);
  }

  #compare(length) {
    const { words, expectedWords } = this;
    for (let k = 0; k < length; k++) {
      if (words[k] === expectedWords[k]) continue;
      this.difference = `call ${this.calls}: octets ${4 * k} to ${4 * k + 3} of the arena differ`;
      return;
    }
  }

  #begin(section) {
    this.#compare(this.words.length);
    this.#measure();
    this.#section = section;
  }

  /** How deep the stack went in the section that ends. */
  #measure() {
    let deepest = 0;
    while (deepest < STACK && this.memory[deepest] === UNUSED) deepest++;
    this.stack[this.#section] = Math.max(this.stack[this.#section], STACK - deepest);
    this.memory.fill(UNUSED, 0, STACK);
  }

  /** The module's own data and the memory behind the arena stay as they were. */
  #outside() {
    const behind = this.memory.subarray(this.from + this.arena.length);
    if (this.data.some((octet, k) => octet !== this.memory[STACK + k])) this.difference = 'the data of the module changed';
    if (behind.some((octet) => octet !== 0)) this.difference = 'octets behind the arena changed';
  }
}

/** Answers the first difference, or null, and what was seen on the way. */
export function compare(instance, operations, answers) {
  return new Comparison(instance, operations, answers).all();
}
