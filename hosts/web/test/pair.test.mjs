// What a window costs a board, and what two boards of different windows make of the same frames: against a reckoning from the native
// library's states, message by message, and against cases worked by hand. BTPU_SEED chooses the random frames.
import assert from 'node:assert/strict';
import { randomInt } from 'node:crypto';
import test from 'node:test';
import { Receiver, load } from '../btpu.mjs';
import { reasonInWords } from '../compare.mjs';
import { hexOf, overLink } from '../frames.mjs';
import { lackedBy, reasonOf } from '../pair.mjs';
import { Run } from '../run.mjs';
import { windowSample } from '../samples.mjs';
import { cancel, piece, sample, sample00 } from './common.mjs';
import { damaged, Random, someFrames, traffic } from './random-frames.mjs';
import { lackingOf, nativelyCame, reckoned } from './reckoning.mjs';

const GOOD = { seed: 1, lose: 0, double: 0, shuffle: 0, damage: 0 };
const WINDOWS = [4, 8, 16], DRAFTS = ['02', '00'];
const module = await load();
const frame = (...messages) => Uint8Array.from(messages.flat());

/** A run to the end of arrivals on a receiver of its own. */
async function runOf(arrivals, { draft = '02', window, limit = {} }) {
  const run = new Run(await Receiver.create({ draft, window }, module), arrivals, limit);
  run.goTo(Infinity);
  return run;
}
const runsOf = (arrivals, draft = '02') => Promise.all(WINDOWS.map((window) => runOf(arrivals, { draft, window })));

/** Holds what a run says of its window's cost to the reckoning. */
function holdCost(run, arrivals, { draft, window }, context) {
  const expected = reckoned(arrivals, { draft, window });
  assert.deepEqual(run.events.map((event) => event.cost), expected, context);
  assert.equal(run.counts.passed, expected.flatMap((cost) => cost.passed).length, context);
  assert.equal(run.counts.dropped, expected.flatMap((cost) => cost.freed).filter((freed) => freed.phase === 'open').length, context);
  return expected;
}

/** Holds what one run lacks of another to the native library's bundles, and each state at the end to the native one. */
function hold(runs, arrivals, draft, context) {
  const native = runs.map((run) => nativelyCame(arrivals, { draft, window: run.windowSize }));
  runs.forEach((run, k) => assert.deepEqual(run.window, native[k].window, context)); // also where frames were taken part by part
  for (const [k, n] of runs.flatMap((_, k) => runs.map((_, n) => [k, n]))) {
    const lacked = lackedBy(runs[k], runs[n]).map(({ arrival, bundle }) => ({ arrival, number: `${bundle.number}`, octets: hexOf(bundle.octets) }));
    assert.deepEqual(lacked, lackingOf(native[k].bundles, native[n].bundles), `${context}: ${runs[k].windowSize} of ${runs[n].windowSize}`);
  }
}

/** Frames of both drafts that are mixed, damaged, sent again and out of order. */
function anyFrames(r, draft) {
  const run = { base: r.once(2) ? 0xfffffff0 : r.next(), manner: r.below(4), draft, window: r.pick(WINDOWS) };
  const made = (r.once(2) ? traffic(r, run, 12) : someFrames(r, run, 20)).map((f) => Uint8Array.from(r.once(6) ? damaged(r, f) : f));
  const twice = [...made, ...made].filter((f) => f.length > 0 && f.length <= 2048).map((f) => ({ f, key: r.next() }));
  return (r.once(2) ? twice.sort((a, b) => a.key - b.key) : twice).map(({ f }) => f);
}

test('what a window cost, and what a board lacks, on the samples over good and bad links', async () => {
  const links = [GOOD, { ...GOOD, seed: 4, shuffle: 30 }, { seed: 133, lose: 30, double: 12, shuffle: 12, damage: 14 }];
  const kinds = new Set();
  let dropped = 0, passed = 0, lacked = 0;
  for (const draft of DRAFTS) {
    const samples = await Promise.all(['mixed', 'late', 'sequence'].map((kind) => windowSample(kind, draft, module)));
    for (const frames of [draft === '00' ? sample00 : sample, ...samples]) {
      for (const link of links) {
        const arrivals = overLink(frames, link), runs = await runsOf(arrivals, draft);
        for (const run of runs) holdCost(run, arrivals, { draft, window: run.windowSize });
        hold(runs, arrivals, draft, JSON.stringify(link));
        dropped += runs[0].counts.dropped;
        passed += runs[0].counts.passed;
        for (const { bundle } of lackedBy(runs[0], runs[2])) kinds.add(reasonOf(runs[0], bundle.number).kind);
        lacked += lackedBy(runs[0], runs[2]).length;
      }
    }
  }
  assert.ok(dropped > 50 && passed > 200 && lacked > 50, `${dropped} dropped, ${passed} passed over, ${lacked} lacked`);
  assert.deepEqual([...kinds].sort(), ['behind', 'freed']);
});

test('the same on random frames, of several transfers each, with hints, damage and jumps of the numbers', async () => {
  const seed = Number(process.env.BTPU_SEED ?? randomInt(1, 2 ** 32 - 1)), r = new Random(seed), kinds = new Set();
  for (let n = 0; n < 12; n++) {
    const draft = DRAFTS[n % 2], arrivals = overLink(anyFrames(r, draft), GOOD), runs = await runsOf(arrivals, draft), context = `seed ${seed}, ${n}`;
    for (const run of runs) holdCost(run, arrivals, { draft, window: run.windowSize }, context);
    hold(runs, arrivals, draft, context);
    for (const [board, other] of runs.flatMap((a) => runs.map((b) => [a, b]))) {
      for (const { bundle } of lackedBy(board, other)) kinds.add(reasonOf(board, bundle.number).kind);
    }
  }
  // Where a transfer's pieces all came and none was lost to the window, no board lacks it.
  assert.ok(kinds.size > 0 && !kinds.has('open'), `seed ${seed}: ${[...kinds].join()}`);
});

test('what a window cost where a limit of messages ends a run inside a frame', async () => {
  const one = await windowSample('mixed', '02', module), joined = Array.from({ length: 9 }, (_, k) => frame(...one.slice(6 * k, 6 * k + 6).map((f) => [...f])));
  for (const messages of [1, 7, 9, 20, 31, 44, 60, 1000]) {
    const run = await runOf(overLink(joined, GOOD), { window: 4, limit: { messages } });
    holdCost(run, overLink(run.events.map(({ length }, k) => joined[k].subarray(0, length)), GOOD), { draft: '02', window: 4 }, `limit ${messages}`);
  }
});

test('a window costs nothing where the samples say so, and bundles where they say that', async () => {
  const counts = { mixed: [8, 14, 18], late: [16, 17, 18], sequence: [18, 18, 18] };
  for (const draft of DRAFTS) {
    for (const [kind, expected] of Object.entries(counts)) {
      const runs = await runsOf(overLink(await windowSample(kind, draft, module), GOOD), draft);
      assert.deepEqual(runs.map((run) => run.counts.bundles), expected, `${kind}, draft ${draft}`);
      assert.deepEqual(runs.map((run) => lackedBy(run, runs[2]).length), expected.map((n) => 18 - n));
      if (kind === 'sequence') assert.deepEqual(runs.map((run) => run.counts.passed + run.counts.dropped), [0, 0, 0]);
    }
  }
});

/** Cases worked by hand: frames, the windows of the board that lacks transfer 10 and of the other one, and why. */
const CASES = [
  ['a piece that comes when its transfer is too far behind', 4, 16,
    [frame(piece(true, 20, 0, [1])), frame(piece(false, 10, 0, [2])), frame(piece(true, 10, 1, [3]))],
    { kind: 'behind', arrival: 1, by: 0, pieces: 0, passed: 2, last: 2, behind: 10 },
    '2 messages of it came too late, the last at frame 3, when it was 10 behind: this board goes back 3.'],
  ['a row that is freed', 4, 8,
    [frame(piece(false, 10, 0, [2])), frame(piece(true, 14, 0, [1])), frame(piece(true, 10, 1, [3]))],
    { kind: 'freed', arrival: 1, by: 14, pieces: 1, passed: 1, last: 2, behind: 4 },
    'Its row was freed at frame 2, when transfer 14 came: 1 piece held was lost. 1 message of it came later, the last at frame 3, when it was 4 behind: this board goes back 3.'],
  ['a row that is freed by the frame that opened it', 8, 16,
    [frame(piece(true, 5, 0, [1])), frame(piece(false, 10, 0, [2]), piece(false, 10, 2, [4]), piece(true, 18, 0, [1])), frame(piece(true, 10, 3, [], [3, 2, 9, 9, 2, 0]), piece(false, 10, 1, [3]))],
    { kind: 'freed', arrival: 1, by: 18, pieces: 2, passed: 2, last: 2, behind: 8 },
    'Its row was freed at frame 2, when transfer 18 came: 2 pieces held were lost. 2 messages of it came later, the last at frame 3, when it was 8 behind: this board goes back 7.'],
  // Half a turn and 3 ahead: new with a window of 16, outside with one of 4.
  ['a greater window that moves on where a smaller one does not', 16, 4,
    [frame(piece(false, 10, 0, [2])), frame(cancel(10 + 2 ** 31 + 3)), frame(piece(true, 10, 1, [3]))],
    { kind: 'freed', arrival: 1, by: 10 + 2 ** 31 + 3, pieces: 1, passed: 0, last: 0, behind: 0 },
    'Its row was freed at frame 2, when transfer 2147483661 came: 1 piece held was lost.'],
  ['a number that the greater window takes for a new one', 4, 16,
    [frame(piece(true, 10, 0, [1])), frame(cancel(10 + 2 ** 31 + 3)), frame(piece(true, 10, 0, [1]))],
    { kind: 'before', arrival: null, by: 0, pieces: 0, passed: 0, last: 0, behind: 0 },
    'A transfer of this number was handed out before, and a number is handed out once.'],
];

for (const [what, window, other, frames, reason, words] of CASES) {
  test(`worked by hand: ${what}`, async () => {
    const arrivals = overLink(frames, GOOD), board = await runOf(arrivals, { window }), full = await runOf(arrivals, { window: other });
    assert.deepEqual(lackedBy(board, full).map(({ arrival, bundle }) => [arrival, bundle.number]), [[2, 10]]);
    assert.deepEqual(lackedBy(full, board), []);
    assert.deepEqual(reasonOf(board, 10), reason);
    assert.equal(reasonInWords(reason, window), words);
    board.goTo(1);
    full.goTo(1);
    assert.deepEqual([lackedBy(board, full), board.lossesOf(10)], [[], []]); // nothing is lost yet at the first frame
  });
}
