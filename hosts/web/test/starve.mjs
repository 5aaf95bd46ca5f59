// A module of which some calls run out of stack: for tests of what happens at a trap. No frame takes more of it than others, so the calls
// that are lent many octets of frames get less.
import { BURST, FUNCTIONS } from './arena.mjs';

/** A call that is lent so many octets of frames, or more, runs out of stack. */
const MANY = 2000;
/** The parameter that says how many octets of frames a function is lent. */
const LENGTHS = { btpu_receive: 4, btpu_receive_burst: BURST.octets };
const TYPE = { i32: 0x7f, i64: 0x7e };
const SECTION = { function: 3, global: 6, export: 7, code: 10 };
const CONST = { [TYPE.i32]: 0x41, [TYPE.i64]: 0x42 };
const FUNCTION = 0, GET = 0x20, SET_GLOBAL = 0x24, CALL = 0x10, IF = [0x04, 0x40], AT_LEAST = 0x5a, END = 0x0b;

const unsigned = (n) => (n < 128 ? [n] : [(n & 127) | 128, ...unsigned(n >>> 7)]);
/** Of a number from 0 on. */
const signed = (n) => (n < 64 ? [n] : [(n & 127) | 128, ...signed(n >>> 7)]);
const vector = (items) => [...unsigned(items.length), ...items.flat()];

/** Reads a module's parts one behind another. */
class Reader {
  at = 0;

  constructor(octets) {
    this.octets = octets;
  }

  number() {
    let n = 0;
    for (let shift = 0; ; shift += 7) {
      const octet = this.octets[this.at++];
      n += (octet & 127) * 2 ** shift;
      if (octet < 128) return n;
    }
  }

  take(length) {
    this.at += length;
    return [...this.octets.subarray(this.at - length, this.at)];
  }

  vector(item) {
    return Array.from({ length: this.number() }, item);
  }
}

/** The module with a stack of `size` octets, a multiple of 16, in each call that is lent many octets of frames. */
export function withStack(octets, size) {
  if (size % 16 !== 0 || size < 0) throw new RangeError('a stack has a multiple of 16 octets');
  const reader = new Reader(octets), head = reader.take(8), sections = [];
  while (reader.at < octets.length) sections.push({ id: reader.number(), content: Uint8Array.from(reader.take(reader.number())) });
  const section = (id) => sections.find((s) => s.id === id);
  const parts = (id, item) => {
    const r = new Reader(section(id).content);
    return r.vector(() => item(r));
  };
  const types = parts(SECTION.function, (r) => r.number());
  const bodies = parts(SECTION.code, (r) => {
    const length = r.number();
    return [...unsigned(length), ...r.take(length)];
  });
  const exports = parts(SECTION.export, (r) => ({ name: String.fromCharCode(...r.take(r.number())), kind: r.number(), index: r.number() }));
  // The stack pointer is the first global.
  const [type] = new Reader(section(SECTION.global).content.subarray(1)).take(1);
  for (const [name, kinds] of FUNCTIONS) {
    if (!(name in LENGTHS)) continue;
    const exported = exports.find((e) => e.name === name && e.kind === FUNCTION);
    const starve = [CONST[type], ...signed(size), SET_GLOBAL, 0];
    const body = [0, GET, LENGTHS[name], CONST[TYPE.i64], ...signed(MANY), AT_LEAST, ...IF, ...starve, END,
      ...[...kinds].flatMap((_, k) => [GET, k]), CALL, ...unsigned(exported.index), END];
    types.push(types[exported.index]);
    bodies.push([...unsigned(body.length), ...body]);
    exported.index = types.length - 1;
  }
  section(SECTION.function).content = vector(types.map(unsigned));
  section(SECTION.code).content = vector(bodies);
  section(SECTION.export).content = vector(exports.map((e) => [...unsigned(e.name.length), ...Buffer.from(e.name), e.kind, ...unsigned(e.index)]));
  return Uint8Array.from([...head, ...sections.flatMap(({ id, content }) => [id, ...unsigned(content.length), ...content])]);
}
