// The test vectors of harness/vectors, which come from another implementation or were worked by hand, on the WebAssembly modules.
import assert from 'node:assert/strict';
import { createHash } from 'node:crypto';
import fs from 'node:fs';
import path from 'node:path';
import test from 'node:test';
import { hasMemory64 } from '../btpu.mjs';
import { octets, repository, web } from './common.mjs';
import { withRoom } from './compare.mjs';

const IMAGE = 3144;
const SENDER_IMAGE = 24;
/** The most octets that a call is lent. */
const LENT = 131072;
const NO_NUMBER = 4294967296n;
const SENDING = ['placed', 'placed and ready', 'ready', 'nothing'];
/** Entries of a result that have no meaning keep these values. */
const UNTOUCHED = [0x1111111111111111n, 0x2222222222222222n, 0x3333333333333333n, 0x4444444444444444n];

function lines(name) {
  const text = fs.readFileSync(path.join(repository, 'harness/vectors', name), 'utf8');
  return text.trim().split('\n').map((line) => JSON.parse(line));
}

const digest = (part) => createHash('sha256').update(part).digest('hex');

const pattern = (length, octet) => Uint8Array.from({ length }, (_, i) => octet(i));
const poolPattern = (length, seed) => pattern(length, (i) => 131 * i + 17 * (i >> 8) + 29 * seed);
const bundlePattern = (length, seed) => pattern(length, (i) => 37 * i + 11 * (i >> 8) + seed);
const framePattern = (length, seed) => pattern(length, (i) => 7 * i + seed);

/** The first octets of a part, then zeros. */
function resized(part, length) {
  const other = new Uint8Array(length);
  other.set(part.subarray(0, length));
  return other;
}

/** The vectors' serialisation of a state, from its image. */
function serialised(image) {
  const out = Buffer.alloc(8357), view = new DataView(image.buffer, image.byteOffset);
  out[0] = image[0];
  out.writeUInt32BE(view.getUint32(4), 1);
  for (let row = 0; row < 16; row++) {
    const from = 8 + 196 * row, to = 5 + 522 * row;
    out[to] = image[from];
    out[to + 1] = image[from + 1];
    out.writeUInt32BE(image[from + 2], to + 2);
    out.writeUInt32BE(image[from + 3], to + 6);
    for (let k = 0; k < 64; k++) {
      out.writeUInt32BE(image[from + 4 + k], to + 10 + 4 * k);
      out.writeUInt32BE(view.getUint16(from + 68 + 2 * k), to + 266 + 4 * k);
    }
  }
  return out;
}

/** The name of an entry that an image can't hold, if there is one. */
function beyondImage({ rows }) {
  for (const row of rows) {
    for (const name of ['kind', 'final', 'count']) if (row[name] > 255) return name;
    if (row.index.some((x) => x > 255)) return 'index';
    if (row.length.some((x) => x > 65535)) return 'length';
  }
  return null;
}

function receiverImage(state, window) {
  const image = new Uint8Array(IMAGE), view = new DataView(image.buffer);
  image[0] = Number(state.g_known);
  image[1] = window;
  view.setUint32(4, state.g);
  for (const row of state.rows) {
    const from = 8 + 196 * row.row;
    image.set([row.kind, Number(row.final_known), row.final, row.count, ...row.index], from);
    row.length.forEach((length, k) => view.setUint16(from + 68 + 2 * k, length));
  }
  return image;
}

function senderImage(state) {
  const image = new Uint8Array(SENDER_IMAGE), view = new DataView(image.buffer);
  view.setUint16(0, state.P);
  view.setUint16(2, state.fill);
  view.setUint32(4, state.next);
  image[8] = Number(state.begun);
  view.setUint32(12, state.number);
  view.setUint16(16, state.length);
  view.setUint16(18, state.placed);
  view.setUint32(20, state.index);
  return image;
}

/** A module whose functions are lent copies of octets, and hand back what they left. */
class Lender {
  #memory;
  #pointer;
  #base;

  constructor({ exports }) {
    this.exports = exports;
    withRoom(exports.memory, Number(exports.__heap_base.value) + LENT);
    this.#memory = exports.memory.buffer;
    this.#pointer = typeof exports.__heap_base.value === 'bigint' ? BigInt : Number;
    this.#base = (Number(exports.__heap_base.value) + 63) & ~63;
  }

  /** Calls with parts lent as a pointer, those of `long` as a pointer and a length; other words go as they are. Parts change in place. */
  call(name, words, long = []) {
    let free = this.#base;
    const lent = [];
    const passed = words.flatMap((word) => {
      if (!ArrayBuffer.isView(word)) return [word];
      const place = free;
      free = (free + word.byteLength + 63) & ~63;
      const view = new Uint8Array(this.#memory, place, word.byteLength);
      view.set(new Uint8Array(word.buffer, word.byteOffset, word.byteLength));
      lent.push([word, view]);
      return long.includes(word) ? [this.#pointer(place), BigInt(word.byteLength)] : [this.#pointer(place)];
    });
    const returned = this.exports[name](...passed) >>> 0;
    for (const [word, view] of lent) new Uint8Array(word.buffer, word.byteOffset, word.byteLength).set(view);
    return returned;
  }
}

/** What a call returns and leaves in the result, by a receiver's vector. */
function expectedReceive(call) {
  const result = [...UNTOUCHED];
  if (call.answer === 'refused') return { returned: call.no + 256 * (call.at ?? 0), result };
  if (call.answer === 'finished') return { returned: 0, result: [0n, ...result.slice(1)] };
  assert.equal(call.answer, 'bundle');
  const number = call.number === null ? NO_NUMBER : BigInt(call.number);
  return { returned: 0, result: [1n, BigInt(call.length), BigInt(call.next), number] };
}

function receiveVector(lender, call, window, state, pool, context) {
  const frame = typeof call.frame === 'string' ? octets(call.frame) : new Uint8Array(call.frame.len).fill(call.frame.fill);
  const output = new Uint8Array(call.out_len).fill(call.out_fill), result = BigUint64Array.from(UNTOUCHED);
  const lent = call.pool_len === undefined ? pool : resized(pool, call.pool_len), before = lent.slice();
  const checked = lender.call('btpu_receiver_check', [state]);
  const returned = lender.call('btpu_receive', [state, lent, frame, BigInt(call.place), output, result], [lent, frame, output]);
  const expected = expectedReceive(call);
  assert.equal(returned, expected.returned, context);
  assert.equal(checked, Number(returned === 1), `${context}: check`);
  assert.deepEqual([...result], expected.result, context);
  if (call.pool_len !== undefined) assert.deepEqual(lent, before, `${context}: the other pool`);
  if (call.bundle !== undefined) assert.deepEqual(output.slice(0, call.length), octets(call.bundle), context);
  assert.equal(digest(serialised(state)), call.state_sha256, `${context}: state`);
  assert.equal(state[1], window, `${context}: window`);
  if (call.state_after !== undefined) assert.deepEqual(state, receiverImage(call.state_after, window), `${context}: state`);
  assert.equal(digest(pool), call.pool_sha256, `${context}: pool`);
  assert.equal(digest(output), call.output_sha256, `${context}: output`);
}

/** The vectors of a file; those that name no window are from before there were others than 16. */
function receiverVectors(lender, file) {
  const ran = { lines: 0, calls: 0, leftOut: [], windows: new Set() };
  for (const line of lines(file)) {
    const { window = 16 } = line;
    const beyond = line.state === 'start' ? null : beyondImage(line.state);
    if (beyond !== null) {
      ran.leftOut.push(beyond);
      continue;
    }
    const state = line.state === 'start' ? new Uint8Array(IMAGE).fill(0xa5) : receiverImage(line.state, window);
    if (line.state === 'start') assert.equal(lender.call('btpu_receiver_start_window', [state, window]), 0);
    const pool = poolPattern(line.pool.len, line.pool.seed);
    line.calls.forEach((call, k) => receiveVector(lender, call, window, state, pool, `${line.id} call ${k}`));
    ran.lines++;
    ran.calls += line.calls.length;
    ran.windows.add(window);
  }
  return ran;
}

function sendVector(lender, call, state, frame, context) {
  const lent = call.frame_len === undefined ? frame : framePattern(call.frame_len, 0), before = lent.slice();
  const bundle = call.op === 'place' ? [bundlePattern(call.bundle.len, call.bundle.seed)] : [];
  const result = BigUint64Array.from(UNTOUCHED), expected = [...UNTOUCHED];
  const checked = lender.call('btpu_sender_check', [state]);
  const returned = lender.call(`btpu_${call.op}`, [state, ...bundle, lent, result], [...bundle, lent]);
  if (call.answer !== 'refused') expected[0] = BigInt(SENDING.indexOf(call.answer));
  assert.equal(returned, call.answer === 'refused' ? call.no : 0, context);
  assert.equal(checked, Number(returned === 1), `${context}: check`);
  assert.deepEqual([...result], expected, context);
  if (call.frame_len !== undefined) assert.deepEqual(lent, before, `${context}: the other frame`);
  if (call.frame_hex !== undefined) assert.deepEqual(frame, octets(call.frame_hex), context);
  assert.deepEqual(state, senderImage(call.state_after), `${context}: state`);
  assert.equal(digest(frame), call.frame_sha256, `${context}: frame`);
}

function senderVectors(lender) {
  const ran = { lines: 0, calls: 0 };
  for (const { id, start, state: given, frame: lent, calls } of lines('sender.jsonl')) {
    const state = start === undefined ? senderImage(given) : new Uint8Array(SENDER_IMAGE).fill(0xa5);
    ran.lines++;
    if (start !== undefined) {
      const returned = lender.call('btpu_sender_start', [state, BigInt(start.P), start.first | 0]);
      assert.equal(returned, start.no ?? 0, id);
      if (returned !== 0) assert.deepEqual([[...state], calls], [Array(SENDER_IMAGE).fill(0xa5), []], id);
    }
    if (calls.length === 0) continue;
    const frame = framePattern(lent.len, lent.seed);
    calls.forEach((call, k) => sendVector(lender, call, state, frame, `${id} call ${k}`));
    ran.calls += calls.length;
  }
  return ran;
}

for (const name of ['btpu.wasm', 'btpu-plain.wasm', 'btpu64.wasm']) {
  const skip = name === 'btpu64.wasm' && !hasMemory64() && 'this node has no memory64';
  const started = async () => new Lender((await WebAssembly.instantiate(fs.readFileSync(path.join(web, name)))).instance);

  // Three lines are left out: no image can hold their states. The numbers are those of harness/tests/vectors.rs.
  test(`${name}: the receiver's vectors`, { skip }, async () => {
    const leftOut = ['length', 'count', 'index'], windows = new Set([16]);
    assert.deepEqual(receiverVectors(await started(), 'receiver.jsonl'), { lines: 347, calls: 5587, leftOut, windows });
  });

  test(`${name}: the vectors by window`, { skip }, async () => {
    assert.deepEqual(receiverVectors(await started(), 'windows.jsonl'), { lines: 75, calls: 123, leftOut: [], windows: new Set([4, 8, 16]) });
  });

  test(`${name}: the sender's vectors`, { skip }, async () => {
    assert.deepEqual(senderVectors(await started()), { lines: 218, calls: 2630 });
  });
}

test('no vector asks for refusal 5, which is never given', () => {
  const refusals = ['receiver.jsonl', 'windows.jsonl'].flatMap(lines).flatMap((line) => line.calls.map((call) => call.no));
  assert.deepEqual(refusals.filter((number) => number === 5), []);
});
