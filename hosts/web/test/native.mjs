// What the comparisons with the native library share, in node and in Chromium: the operations, the native answers, and what a
// comparison must have seen. BTPU_SEED and FRAMES choose the operations.
import assert from 'node:assert/strict';
import { execFileSync } from 'node:child_process';
import { randomInt } from 'node:crypto';
import fs from 'node:fs';
import path from 'node:path';
import { here, nativeProgram, temporary } from './common.mjs';
import { STACK } from './compare.mjs';
import { generate } from './generate.mjs';

export const seed = Number(process.env.BTPU_SEED ?? randomInt(1, 2 ** 32 - 1));
export const frames = Number(process.env.FRAMES ?? 24000);

/** Operations from the seed, and what the native library answers to them. */
export function prepare() {
  const files = ['operations', 'answers'].map((name) => path.join(temporary, name));
  const operations = generate(seed, frames);
  fs.writeFileSync(files[0], operations);
  execFileSync(nativeProgram(path.join(here, 'native.c')), files);
  return { operations, answers: fs.readFileSync(files[1]) };
}

/** The refusals that each function gives, by btpu.h; 5 is never given. */
const REFUSALS = {
  btpu_receiver_start: [],
  btpu_receiver_start_window: [21],
  btpu_receiver_start_00: [21],
  btpu_receiver_check: [1],
  btpu_receive: [1, 2, 3, 4, 6, 7, 8, 9],
  btpu_receive_burst: [1, 2, 3, 9, 19],
  btpu_sender_start: [14],
  btpu_sender_start_00: [14],
  btpu_sender_check: [1],
  btpu_place: [1, 10, 11, 12],
  btpu_cancel: [1, 10, 13],
  btpu_flush: [1, 10],
  btpu_record: [17, 18, 19, 24],
  btpu_recording_open: [16, 17, 18, 19, 20],
  btpu_play: [2, 16, 17, 18, 19, 20, 24],
};
/**
 * The answers: of btpu_receive 0 finished, 1 a bundle; of btpu_receive_burst 0 all frames taken, 1 stopped at 256 bundles, 2 stopped for
 * want of output; else 0 placed, 1 placed and ready, 2 ready, 3 nothing.
 */
const ANSWERS = { btpu_receive: [0, 1], btpu_receive_burst: [0, 1, 2], btpu_place: [0, 1, 2], btpu_cancel: [0], btpu_flush: [2, 3] };

/** The refusals for which a burst passes a frame over. */
const PASSED = [3, 4, 6, 7, 8];

const seen = (counts) => Object.fromEntries(Object.entries(counts).map(([name, of]) => [name, Object.keys(of).map(Number)]));

/** Holds a comparison to what it must have seen, and answers a line that tells of it. */
export function judge(name, found) {
  assert.equal(found.difference, null, `${name}, seed ${seed}`);
  assert.ok(found.frames >= frames, 'fewer frames than asked for');
  assert.deepEqual(seen(found.refusals), REFUSALS, `refusals, seed ${seed}`);
  assert.deepEqual(seen(found.answers), ANSWERS, `answers, seed ${seed}`);
  assert.deepEqual(Object.keys(found.passed).map(Number), PASSED, `frames passed over in bursts, seed ${seed}`);
  const { received, begun } = found.draft00;
  assert.ok(received > frames / 400 && begun > frames / 40, `draft 00, seed ${seed}: ${received} transfers handed out, ${begun} begun`);
  for (const [window, count] of Object.entries(found.windows)) assert.ok(count > frames / 1200, `window ${window}, seed ${seed}: ${count} transfers handed out`);
  const [receiving, playing, bursts] = found.stack;
  assert.ok(found.longest.every((calls) => calls > 0), `calls with the longest chain of hints: ${found.longest}`);
  // What a call takes of the stack is the same for all frames that are taken: less shows that it was not measured.
  assert.ok(receiving > 15000 && playing > 75000 && bursts > 15000, `stack used: ${found.stack}`);
  assert.ok(Math.max(...found.stack) <= (2 * STACK) / 3, `stack used: ${found.stack}`);
  const refused = Object.values(found.refusals).flatMap((of) => Object.values(of)).reduce((sum, n) => sum + n, 0);
  return `${name}: seed ${seed}, ${found.frames} frames, ${found.calls} calls, ${found.bundles} bundles, ${refused} refusals of `
    + `${new Set(Object.values(REFUSALS).flat()).size} numbers; stack: ${receiving} octets, ${bursts} in bursts, ${playing} in btpu_play`;
}
