// The wrapper in node: what it answers, what it refuses, and what it does after a trap.
import assert from 'node:assert/strict';
import { execFileSync } from 'node:child_process';
import { randomInt } from 'node:crypto';
import fs from 'node:fs';
import path from 'node:path';
import test from 'node:test';
import { Receiver, Recorder, RefusalError, Sender, SIZES, TrapError, hasMemory64, load, readWindow, words } from '../btpu.mjs';
import { overLink } from '../frames.mjs';
import { NOTHING, contentOf, showing, tableOf } from '../timetable.mjs';
import { cancel, chain, message, octets, piece, pieceIn, repository, sample, sample00, web } from './common.mjs';
import { damaged, GREATEST, Random, someFrames } from './random-frames.mjs';
import { withStack } from './starve.mjs';

const text = (s) => new TextEncoder().encode(s);
const file = (name) => fs.readFileSync(path.join(web, name));
const refusal = (number) => (e) => e instanceof RefusalError && e.number === number;
const frame = (...messages) => Uint8Array.from(messages.flat());
const hex = (u) => Buffer.from(u).toString('hex');
const DRAFTS = ['02', '00'];
const WINDOWS = [4, 8, 16];
/** What a receiver answers to frames in hex, one after another. */
const answered = (r, frames) => frames.map((f) => r.receive(octets(f)))
  .map((a) => [a.bundles.map((b) => [b.number, hex(b.octets)]), a.refusal && [a.refusal.number, a.refusal.place]]);

for (const name of ['btpu.wasm', 'btpu-plain.wasm', 'btpu64.wasm']) {
  test(name, { skip: name === 'btpu64.wasm' && !hasMemory64() && 'this node has no memory64' }, async (t) => {
    const module = await load(file(name));
    await receiving(t, module, name);
    await bursts(t, module, name);
    await sending(t, module);
    await recording(t, module);
    await draft00(t, module);
    await windows(t, module);
  });
}

async function receiving(t, module, name) {
  const receiver = () => Receiver.create(module);

  await t.test('the marked cases of document 01, as corrected by request E2', async () => {
    const answer = async (...frames) => answered(await receiver(), frames);
    assert.deepEqual(await answer('02 00 00 03 41 42 43'), [[[[null, '414243']], null]]);
    assert.deepEqual(await answer('00 00 00'), [[[], null]]);
    assert.deepEqual(await answer('01 00 00 00'), [[[], null]]);
    assert.deepEqual(await answer('04 00 00 09 00 00 00 05 00 00 00 00 41'), [[[[5, '41']], null]]);
    assert.deepEqual(await answer('05 00 00 04 00 00 00 05', '04 00 00 09 00 00 00 05 00 00 00 00 41'), [[[], null], [[], null]]);
    assert.deepEqual(await answer('02 80 00 05 02 01 FF 41 42'), [[[[null, '4142']], null]]);
    assert.deepEqual(await answer('02 10 00 00'), [[[[null, '']], null]]);
    assert.deepEqual(await answer('00 02 00 00 00'), [[[[null, '']], null]]);
    for (const [bad, number] of [['02 00 00 04 41', 6], ['03 00 00', 4], ['02 80 00 01 02', 7], ['05 00 00 03 00 00 00', 8]]) {
      assert.deepEqual(await answer(bad), [[[], [number, 0]]]);
      assert.deepEqual(await answer(`00 ${bad}`), [[[], [number, 1]]]);
    }
  });

  await t.test('a bundle handed out belongs to the caller', async () => {
    const r = await receiver(), two = octets('02 00 00 01 41 02 00 00 01 42'), { bundles } = r.receive(two);
    bundles[0].octets[0] = 9;
    r.receive(octets('02 00 00 01 43'));
    assert.deepEqual(bundles.map((b) => b.octets[0]), [9, 0x42]);
    assert.deepEqual(r.receive(two).bundles.map((b) => b.octets[0]), [0x41, 0x42]);
  });

  await t.test('512 bundles in one frame, and the longest chain of hints', async () => {
    const r = await receiver();
    assert.equal(r.receive(frame(...Array(512).fill(message(2, 0, [])))).bundles.length, 512);
    assert.deepEqual(r.receive(frame(message(2, 128, chain(1022)))).bundles.map((b) => b.octets.length), [0]);
  });

  await t.test('empty and too long frames are refused with 3', async () => {
    const r = await receiver();
    for (const length of [0, 2049, 100000]) assert.deepEqual(r.receive(new Uint8Array(length)).refusal, { number: 3, place: null, words: words(3) });
    assert.equal(r.receive(new Uint8Array(2048)).refusal, null);
  });

  await t.test('any view and ArrayBuffer is a frame, and nothing else', async () => {
    const r = await receiver(), f = octets('02 00 00 01 41');
    for (const view of [f, f.buffer, new DataView(f.buffer), Buffer.from(f)]) assert.equal(r.receive(view).bundles.length, 1);
    for (const other of [undefined, null, 'abc', 5, [2, 0, 0, 0], {}]) assert.throws(() => r.receive(other), TypeError);
  });

  const settings = DRAFTS.flatMap((draft) => WINDOWS.map((window) => ({ draft, window })));
  for (const { draft, window } of settings) {
    await t.test(`saved in mid-transfer, restored in another receiver, of any draft and window: draft ${draft}, ${window}`, async () => {
      const s = await Sender.create({ frameSize: 128, firstNumber: 77, draft }, module), [first, ...rest] = [...s.send(text('x'.repeat(500))), s.flush()];
      for (const other of settings) {
        const a = await Receiver.create({ draft, window }, module), b = await Receiver.create(other, module);
        a.receive(first);
        const saved = a.save();
        a.receive(rest[0]); // what goes on in a does not change what was saved
        b.restore(saved);
        assert.deepEqual(b.save(), saved);
        assert.deepEqual([b.draft, b.windowSize, saved.image[1], saved.pool.length], [draft, window, window, 4096 * window]);
        assert.deepEqual(b.window().rows[77 % window].pieces, [{ index: draft === '00' ? 4 : 0, length: 116 }]);
        assert.deepEqual(rest.flatMap((f) => b.receive(f).bundles).map((x) => [x.number, x.octets.length]), [[77, 500]]);
        b.restart();
        assert.deepEqual(b.save(), (await Receiver.create({ draft, window }, module)).save());
      }
    });
  }

  await t.test('what is not sound is not restored, and changes nothing', async () => {
    const r = await receiver(), row = 8 + 196 * 5;
    r.receive(frame(piece(false, 5, 1, [1, 2, 3])));
    const before = r.save();
    const windowless = [0, 1, 4, 5, 9, 15, 17, 32, 255].map((octet) => [1, octet]); // with 4, the row in use is beyond the window
    for (const [at, octet] of [...windowless, [0, 2], [2, 2], [2, 255], [3, 1], [row + 3, 0], [row, 9], [8 + 196 * 8, 1], [3000, 1]]) {
      const other = r.save();
      other.image[at] = octet;
      other.pool.fill(7);
      assert.throws(() => r.restore(other), refusal(1));
      assert.deepEqual(r.save(), before);
    }
    for (const wrong of [{ ...before, image: new Uint8Array(5) }, { ...before, pool: new Uint8Array(5) }]) assert.throws(() => r.restore(wrong), RangeError);
    for (const wrong of [null, undefined, 5, {}, { image: 'a', pool: 'b' }]) assert.throws(() => r.restore(wrong), TypeError);
    assert.deepEqual(r.save(), before);
  });

  await t.test('the window as rows', async () => {
    const r = await Receiver.create({ window: 16 }, module);
    assert.equal(r.window().greatest, null);
    assert.ok(r.window().rows.every((row) => row.number === null && row.phase === 'free'));
    r.receive(frame(piece(false, 20, 0, [1, 2]), piece(true, 20, 3, [3]), cancel(19), piece(false, 18, 64, []), piece(true, 17, 0, [9])));
    const { greatest, rows } = r.window();
    assert.equal(greatest, 20);
    assert.deepEqual([4, 3, 2, 1, 0].map((k) => [rows[k].number, rows[k].phase]), [[20, 'open'], [19, 'cancelled'], [18, 'given up'], [17, 'done'], [16, 'free']]);
    assert.deepEqual(rows[4], { row: 4, number: 20, phase: 'open', last: 3, pieces: [{ index: 0, length: 2 }, { index: 3, length: 1 }] });
    assert.equal(rows[5].number, 5);
    for (const wrong of [new Uint8Array(3), new Uint8Array(3144), new Uint8Array(3144).fill(17, 1, 2)]) assert.throws(() => readWindow(wrong), RangeError);
  });

  await t.test('restart forgets', async () => {
    const r = await receiver(), whole = frame(piece(true, 5, 0, [1]));
    assert.deepEqual([1, 2].map(() => r.receive(whole).bundles.length), [1, 0]);
    r.restart();
    assert.equal(r.receive(whole).bundles.length, 1);
    assert.ok((await receiver()).save().pool.every((octet) => octet === 0));
  });

  await t.test('a trap ends the use of a receiver, and a new one goes on from what was saved', async () => {
    const starved = await load(withStack(file(name), 8192)), r = await Receiver.create(starved);
    r.receive(frame(piece(false, 5, 0, [1, 2, 3])));
    const saved = r.save(), long = frame(message(2, 0, [65]), message(2, 128, chain(1000)));
    assert.throws(() => r.receive(long), TrapError);
    assert.equal(r.broken, true);
    for (const use of [() => r.receive(new Uint8Array(1)), () => r.save(), () => r.restore(saved), () => r.restart(), () => r.window()]) assert.throws(use, TrapError);
    const next = await Receiver.create(starved);
    next.restore(saved);
    assert.deepEqual(next.receive(frame(piece(true, 5, 1, [4]))).bundles.map((b) => [b.number, [...b.octets]]), [[5, [1, 2, 3, 4]]]);
    assert.equal((await receiver()).receive(long).bundles.length, 2); // with its own stack the module takes it
  });
}

/** What receiveAll must answer: each frame received by itself. */
function oneByOne(receiver, frames) {
  const answers = frames.map((f) => receiver.receive(f));
  const refused = answers.flatMap(({ refusal: r }, frame) => (r === null ? [] : [{ frame, number: r.number, words: r.words }]));
  return { bundles: answers.flatMap((a) => a.bundles), refused };
}

/** Frames of each refusal that a frame can meet: 3, 3, 3, 4, 6, 7, 8; in draft 00 6 in place of 7. */
const REFUSED = [
  ...[0, 2049, 70000].map((length) => new Uint8Array(length)),
  ...['03 00 00', '02 00 00 04 41', '02 80 00 01 02', '05 00 00 03 00 00 00'].map(octets),
];
/** A bundle of 4,096 octets in three frames. */
const inThree = (number) => [2036, 2036, 24].map((length, k) => frame(piece(k === 2, number, k, Array(length).fill(number + k))));
/** Frames of all kinds, in any order. */
function anyFrames(r, draft, window) {
  const run = { base: r.once(2) ? 0xfffffff8 : r.next(), manner: r.below(4), draft, window };
  const made = someFrames(r, run, 60 + r.below(80)).map((f) => (r.once(4) ? damaged(r, f) : f));
  const frames = [...[...made, ...GREATEST.map((make) => make(r, run))].map((f) => Uint8Array.from(f)), ...REFUSED, ...inThree(run.base)];
  return frames.map((f) => ({ f, key: r.next() })).sort((a, b) => a.key - b.key).map(({ f }) => f);
}

async function bursts(t, module, name) {
  const receiver = () => Receiver.create(module);
  /** Holds receiveAll to receive frame by frame: the answer, and the state after. */
  const same = async (frames, message, start = {}) => {
    const [a, b] = await Promise.all([0, 1].map(() => Receiver.create(start, module))), expected = oneByOne(a, frames);
    assert.deepEqual(b.receiveAll(frames), expected, message);
    assert.deepEqual(b.save(), a.save(), message);
    return expected;
  };

  await t.test('frames in bursts: the sample', async () => {
    assert.ok((await same(sample)).bundles.length > 0);
    await same([...sample, ...REFUSED, ...sample]);
    assert.ok((await same([...sample00, ...REFUSED, ...sample00], 'draft 00', { draft: '00' })).bundles.length > 0);
  });

  await t.test('frames in bursts: random ones, with refused ones of each kind', async () => {
    const seed = Number(process.env.BTPU_SEED ?? randomInt(1, 2 ** 32 - 1)), r = new Random(seed);
    for (let n = 0; n < 18; n++) {
      const draft = DRAFTS[n % 2], window = WINDOWS[n % 3];
      const { bundles, refused } = await same(anyFrames(r, draft, window), `seed ${seed}`, { draft, window });
      assert.ok(bundles.length >= 512);
      assert.deepEqual([...new Set(refused.map((x) => x.number))].sort(), draft === '00' ? [3, 4, 6, 8] : [3, 4, 6, 7, 8]);
    }
  });

  await t.test('frames in bursts: lists of each length, and a receiver that goes on', async () => {
    const one = (k) => (k % 5 === 4 ? REFUSED[k % 7] : frame(message(2, 0, [k]), piece(k % 3 === 2, Math.floor(k / 3), k % 3, [k])));
    for (const length of [0, 1, 2, 63, 64, 65, 127, 128, 129, 300]) await same(Array.from({ length }, (_, k) => one(k)));
    assert.deepEqual((await receiver()).receiveAll([]), { bundles: [], refused: [] });
    const a = await receiver(), b = await receiver();
    for (let from = 0; from < 100; from += 23) {
      const frames = Array.from({ length: 23 }, (_, k) => one(from + k));
      assert.deepEqual(a.receiveAll(frames), oneByOne(b, frames));
    }
    assert.deepEqual(a.save(), b.save());
  });

  await t.test('frames in bursts: more bundles and more octets than one call hands out', async () => {
    const many = frame(...Array(512).fill(message(2, 0, [])));
    assert.equal((await same([many])).bundles.length, 512);
    assert.equal((await same(Array(70).fill(many))).bundles.length, 70 * 512);
    const last = frame(...Array.from({ length: 256 }, (_, k) => message(2, 0, [k])));
    assert.equal((await same([last, new Uint8Array(0), last])).bundles.length, 512); // the first call stops at a frame's end
    const { bundles } = await same(Array.from({ length: 60 }, (_, number) => inThree(number)).flat());
    const ends = bundles.map((b) => [b.number, b.octets.length, b.octets[0], b.octets[4095]]);
    assert.deepEqual(ends, Array.from({ length: 60 }, (_, k) => [k, 4096, k, k + 2]));
    assert.equal((await same(Array(64).fill(frame(message(2, 0, Array(2044).fill(7)))))).bundles.length, 64);
    assert.equal((await same(Array(65).fill(new Uint8Array(3000)))).refused.length, 65);
  });

  await t.test('frames in bursts: any iterable of any views, and nothing else', async () => {
    const r = await receiver(), good = octets('02 00 00 01 41'), buffer = Buffer.from(good);
    function* refilled() { // each time in the same buffer
      for (let k = 0; k < 100; k++) {
        buffer[4] = k;
        yield buffer;
      }
    }
    assert.deepEqual(r.receiveAll(refilled()).bundles.map((b) => b.octets[0]), Array.from({ length: 100 }, (_, k) => k));
    assert.equal(r.receiveAll(new Set([good, good.buffer, new DataView(good.buffer), Buffer.from(good)])).bundles.length, 4);
    const before = r.save(), first = frame(piece(false, 5, 0, [1]));
    for (const wrong of ['abc', [2, 0, 0, 0], 5, null, undefined, {}]) {
      for (const list of [[wrong], [first, wrong], [...Array(200).fill(first), wrong]]) assert.throws(() => r.receiveAll(list), TypeError);
    }
    for (const wrong of [undefined, null, 5, {}, 'abc', good, good.buffer]) assert.throws(() => r.receiveAll(wrong), TypeError);
    function* failing() {
      yield first;
      throw new Error('no more');
    }
    assert.throws(() => r.receiveAll(failing()), /no more/);
    assert.deepEqual(r.save(), before);
  });

  await t.test('frames in bursts: bundles belong to the caller', async () => {
    const r = await receiver(), given = octets('02 00 00 01 41'), { bundles } = r.receiveAll([given, given]);
    bundles[0].octets[0] = 9;
    assert.deepEqual(given, octets('02 00 00 01 41'));
    r.receiveAll([octets('02 00 00 01 43 02 00 00 01 44')]);
    assert.deepEqual(bundles.map((b) => b.octets[0]), [9, 0x41]);
  });

  await t.test('frames in bursts: a trap hands over the bundles of the bursts before', async () => {
    const r = await Receiver.create(await load(withStack(file(name), 8192)));
    const short = Array.from({ length: 70 }, (_, k) => frame(message(2, 0, [k]))), long = frame(message(2, 128, chain(1022)));
    const saved = r.save();
    assert.equal(r.receiveAll(short).bundles.length, 70);
    assert.throws(() => r.receiveAll([...short, long]), (e) => {
      assert.deepEqual(e.bundles.map((b) => b.octets[0]), Array.from({ length: SIZES.burstFrames }, (_, k) => k));
      return e instanceof TrapError;
    });
    assert.equal(r.broken, true);
    for (const use of [() => r.receiveAll([]), () => r.receiveAll(short), () => r.receive(short[0])]) assert.throws(use, TrapError);
    const next = await receiver();
    next.restore(saved);
    assert.equal(next.receiveAll([...short, long]).bundles.length, 71);
  });
}

async function sending(t, module) {
  const sender = (frameSize, firstNumber, draft) => Sender.create({ frameSize, firstNumber, draft }, module);

  await t.test('300 octets in frames of 128 are pieces of 116, 116 and 68', async () => {
    const s = await sender(128, 9);
    assert.deepEqual(s.send(new Uint8Array(300).fill(7)).map((f) => f.length), [128, 128]);
    assert.deepEqual([s.fill, s.nextNumber, s.begun, s.frameSize], [80, 10, false, 128]);
    assert.equal(s.send(new Uint8Array(44)).length, 1);
    assert.equal(s.fill, 0);
    assert.equal(s.flush(), null);
  });

  for (const draft of DRAFTS) {
    await t.test(`what is sent arrives, over frames that come twice and in another order: draft ${draft}`, async () => {
      const s = await sender(256, 0xfffffffe, draft), r = await Receiver.create({ draft }, module);
      const sent = [text('a notice'), ...[300, 4096, 900, 1].map((n) => Uint8Array.from({ length: n }, (_, k) => k * 7 + n))];
      const frames = [...sent.flatMap((b) => s.send(b)), s.flush()];
      const got = overLink([...frames, ...frames], { seed: 3, lose: 0, double: 20, shuffle: 5, damage: 0 }).flatMap((a) => r.receive(a.frame).bundles);
      assert.deepEqual(got.map((b) => b.number).filter((n) => n !== null).sort((a, b) => a - b), [0, 0xfffffffe, 0xffffffff]);
      for (const b of sent) assert.ok(got.some((g) => hex(g.octets) === hex(b)));
    });
  }

  await t.test('what a sender refuses', async () => {
    for (const size of [0, 127, 2049, 65536 + 128, 2 ** 32 + 128]) await assert.rejects(sender(size, 0), refusal(14));
    for (const size of [-1, 1.5, NaN, '128', 2 ** 60, undefined]) await assert.rejects(sender(size, 0), RangeError);
    for (const number of [-1, 2 ** 32, 0.5, undefined]) await assert.rejects(sender(128, number), RangeError);
    const s = await sender(128, 0), bundle = new Uint8Array(300).fill(1);
    assert.throws(() => s.cancel(), refusal(13));
    for (const length of [0, 4097, 100000]) assert.throws(() => s.send(new Uint8Array(length)), refusal(11));
    assert.throws(() => s.send('text'), TypeError);
    assert.equal(s.place(bundle).ended, false);
    assert.throws(() => s.place(bundle.subarray(1)), refusal(12));
    assert.throws(() => s.place(new Uint8Array(300).fill(2)), RangeError); // which the library can't see
    const lent = Buffer.from(bundle), other = await sender(128, 0);
    other.place(lent);
    lent[200] = 9;
    assert.throws(() => other.place(lent), RangeError); // changed in mid-transfer
    assert.equal(s.send(bundle).length, 1);
    assert.equal(s.begun, false);
  });

  for (const draft of DRAFTS) {
    await t.test(`a transfer that is cancelled, and the next one: draft ${draft}`, async () => {
      const s = await sender(128, 3, draft), r = await Receiver.create({ draft }, module);
      const [one, two] = [s.place(new Uint8Array(300)), s.place(new Uint8Array(300))];
      s.cancel();
      assert.equal(s.begun, false);
      const frames = [one.frame, two.frame, ...s.send(new Uint8Array(300).fill(8)), s.flush()];
      assert.deepEqual(frames.flatMap((f) => r.receive(f).bundles).map((b) => [b.number, b.octets[0]]), [[4, 8]]);
      assert.equal(r.window().rows[3].phase, 'cancelled');
    });

    await t.test(`saved in mid-transfer, restored in another sender, of any draft: draft ${draft}`, async () => {
      const bundle = Uint8Array.from({ length: 700 }, (_, k) => k), a = await sender(200, 50, draft);
      const before = [...a.send(text('first')), a.place(bundle).frame], saved = a.save();
      for (const started of DRAFTS) {
        const b = await sender(200, 0, started), r = await Receiver.create({ draft }, module);
        b.restore(saved);
        assert.deepEqual(b.save(), saved);
        assert.equal(b.draft, draft);
        assert.throws(() => b.place(new Uint8Array(600)), refusal(12));
        const frames = [...before.filter((f) => f !== null), ...b.send(bundle), b.flush()];
        assert.deepEqual(frames.flatMap((f) => r.receive(f).bundles).map((x) => x.octets.length), [5, 700]);
        for (const [at, octet] of [[9, 2], [9, 255], [10, 1], [11, 1]]) {
          assert.throws(() => b.restore({ ...saved, image: saved.image.map((x, k) => (k === at ? octet : x)) }), refusal(1));
        }
      }
      const other = await sender(300, 0), kept = other.save();
      assert.throws(() => other.restore(saved), RangeError);
      assert.throws(() => other.restore({ ...saved, frame: new Uint8Array(300) }), RangeError);
      assert.deepEqual(other.save(), kept);
    });
  }
}

async function recording(t, module) {
  const recorder = () => Recorder.create(module);

  await t.test('recorded frames open and play as they were received', async () => {
    const r = await recorder(), receiver = await Receiver.create({ window: 16 }, module);
    const frames = [...sample, octets('02 00 00 09'), octets('02 00 00 01 41')];
    const recording = r.record(frames);
    assert.deepEqual(r.open(recording), frames);
    const answers = frames.map((f) => receiver.receive(f)), played = r.play(recording);
    assert.deepEqual(played.bundles, answers.flatMap((a) => a.bundles).map((b) => b.octets));
    assert.deepEqual(played.refused, answers.flatMap((a, frame) => (a.refusal ? [{ frame, number: a.refusal.number, words: a.refusal.words }] : [])));
    assert.equal(played.refused.at(-1).frame, sample.length);
    assert.deepEqual(r.play(recording, { messages: played.messages }), played);
    assert.deepEqual(r.play(recording, { messages: 0 }), { messages: 0, bundles: [], refused: [] });
    for (const messages of [-1, 1.5, '3', null]) assert.throws(() => r.play(recording, { messages }), RangeError);
  });

  await t.test('what is no recording is refused', async () => {
    const r = await recorder(), good = r.record([octets('02 00 00 01 41')]), turned = (at, octet) => good.map((x, k) => (k === at ? octet : x));
    for (const call of [(x) => r.open(x), (x) => r.play(x)]) {
      assert.throws(() => call(good.subarray(0, good.length - 1)), refusal(16));
      assert.throws(() => call(turned(2, 5)), refusal(17));
      assert.throws(() => call(turned(4, 9)), refusal(18));
      assert.throws(() => call(turned(9, 4)), refusal(19));
      for (const more of [1, 100000]) assert.throws(() => call(Uint8Array.from([...good, ...new Uint8Array(more)])), refusal(20));
      assert.throws(() => call('recording'), TypeError);
    }
  });

  await t.test('the limits of a recording', async () => {
    const r = await recorder(), one = (length) => new Uint8Array(length);
    assert.deepEqual(r.open(r.record([])), []);
    assert.equal(r.open(r.record(Array(1024).fill(one(60)))).length, 1024);
    assert.equal(r.record(Array(30).fill(one(2048))).length, 61440 + 68);
    assert.throws(() => r.record(Array(1025).fill(one(1))), refusal(17));
    assert.throws(() => r.record([...Array(30).fill(one(2048)), one(1)]), refusal(17));
    for (const length of [0, 2049]) assert.throws(() => r.record([one(length)]), refusal(18));
    assert.throws(() => r.record([one(70000)]), refusal(17));
    for (const wrong of [['frame'], [[1, 2]], 5]) assert.throws(() => r.record(wrong), TypeError);
  });
}

async function draft00(t, module) {
  await t.test('the marked cases of document 01, and the layouts of draft 00', async () => {
    const answer = async (...frames) => answered(await Receiver.create({ draft: '00' }, module), frames);
    const last = '04 00 00 09 00 00 00 05 00 00 00 00 43', middle = '04 00 00 09 00 00 00 05 00 00 00 01 42', start = '03 00 00 09 00 00 00 05 00 00 00 02 41';
    assert.deepEqual(await answer('02 00 00 03 41 42 43'), [[[[null, '414243']], null]]);
    for (const nothing of ['00 00 00', '01 00 00 00', last, middle, start]) assert.deepEqual(await answer(nothing), [[[], null]]);
    assert.deepEqual(await answer(last, start, middle), [[[], null], [[], null], [[[5, '414243']], null]]);
    const alone = '03 00 00 09 00 00 00 05 00 00 00 00 41'; // a start with index 0
    assert.deepEqual(await answer(alone), [[[[5, '41']], null]]);
    assert.deepEqual(await answer('05 00 00 04 00 00 00 05', alone), [[[], null], [[], null]]);
    assert.deepEqual(await answer('00 02 00 00 00'), [[[[null, '']], null]]);
    for (const type of ['06', 'ff']) assert.deepEqual(await answer(`${type} 00 00 01 41 02 00 00 01 42`), [[[[null, '42']], null]]);
    const short = ['05 00 00 03 00 00 00', '03 00 00 07 00 00 00 05 00 00 00', '04 00 00 07 00 00 00 05 00 00 00'];
    const beyond = ['02 00 00 04 41', '02 10 00 00', '02 80 00 05 02 01 FF 41 42', '02 80 00 01 02'];
    for (const [bad, number] of [...beyond.map((f) => [f, 6]), ['03 00 00', 4], ...short.map((f) => [f, 8])]) {
      assert.deepEqual(await answer(bad), [[[], [number, 0]]]);
      assert.deepEqual(await answer(`00 ${bad}`), [[[], [number, 1]]]);
    }
  });

  await t.test('the start carries the highest index, by the room in its frame, and the last piece is a segment with index 0', async () => {
    const s = await Sender.create({ frameSize: 128, firstNumber: 9, draft: '00' }, module), head = (f) => hex(f.subarray(0, 12));
    const frames = [...s.send(new Uint8Array(300).fill(7)), s.flush()];
    assert.deepEqual(frames.map(head), ['0300007c0000000900000002', '0400007c0000000900000001', '0400004c0000000900000000']);
    assert.equal(hex(frames[2].subarray(12)), `${'07'.repeat(68)}0100002c${'00'.repeat(44)}`);
    assert.deepEqual(s.send(new Uint8Array(44)), []);
    const [first, ...rest] = s.send(new Uint8Array(300).fill(8)); // a room of 80: 68 octets, then 116 twice
    assert.deepEqual([hex(first.subarray(48, 60)), ...rest.map(head)], ['0300004c0000000a00000002', '0400007c0000000a00000001', '0400007c0000000a00000000']);
    assert.deepEqual([s.fill, s.nextNumber, s.begun, s.draft], [0, 11, false, '00']);
  });

  await t.test('the window: what is known of the highest index, and restart in the same draft', async () => {
    const r = await Receiver.create({ draft: '00' }, module), row = () => r.window().rows[5];
    r.receive(octets('04 00 00 09 00 00 00 05 00 00 00 01 41'));
    assert.deepEqual([row().last, row().pieces], [null, [{ index: 1, length: 1 }]]);
    r.receive(octets('03 00 00 0a 00 00 00 05 00 00 00 03 41 42'));
    assert.deepEqual([row().last, row().pieces], [3, [{ index: 1, length: 1 }, { index: 3, length: 2 }]]);
    r.restart();
    assert.deepEqual([row().phase, r.draft], ['free', '00']);
    assert.equal(r.receive(octets('02 10 00 00')).refusal.number, 6);
  });

  await t.test('the draft is 02 unless it is asked for, and no other than 00 or 02', async () => {
    const sender = (start) => Sender.create({ frameSize: 128, firstNumber: 0, ...start }, module), instance = () => WebAssembly.instantiate(module);
    const made = [Receiver.create(module), Receiver.create(undefined, module), Receiver.create({}, module), Receiver.create({ draft: undefined }, module),
      Receiver.create({ draft: '02' }, module), sender({}), sender({ draft: '02' }), instance().then((one) => new Receiver(one))];
    assert.deepEqual((await Promise.all(made)).map((one) => one.draft), made.map(() => '02'));
    const older = [Receiver.create({ draft: '00' }, module), sender({ draft: '00' }), instance().then((one) => new Receiver(one, { draft: '00' }))];
    assert.deepEqual((await Promise.all(older)).map((one) => one.draft), older.map(() => '00'));
    for (const draft of ['01', '0', '2', '', 'draft 00', 0, 2, null, ['00']]) {
      await assert.rejects(Receiver.create({ draft }, module), RangeError);
      await assert.rejects(sender({ draft }), RangeError);
    }
    await assert.rejects(Receiver.create(module, { draft: '00' }), TypeError);
    await assert.rejects(Receiver.create('00', module), TypeError);
  });

  await t.test('a recording of frames of draft 00 is played as draft 02', async () => {
    const r = await Recorder.create(module), receiver = await Receiver.create({ window: 16 }, module), answers = sample00.map((f) => receiver.receive(f));
    const { bundles, refused } = r.play(r.record(sample00));
    assert.deepEqual(bundles, answers.flatMap((a) => a.bundles).map((b) => b.octets));
    assert.deepEqual(refused.map((x) => x.number), answers.flatMap((a) => (a.refusal ? [a.refusal.number] : [])));
  });
}

async function windows(t, module) {
  const receiver = (window, draft = '02') => Receiver.create({ window, draft }, module);
  const instance = () => WebAssembly.instantiate(module);
  /** A transfer of one piece: an end, in draft 00 a start, with index 0. */
  const whole = (number, draft = '02') => frame(pieceIn(draft, number >>> 0, 0, 1, [65]));

  await t.test('the window is 8 unless another is asked for, and no other than 4, 8 or 16', async () => {
    const made = [Receiver.create(module), Receiver.create({}, module), Receiver.create({ window: undefined, draft: '00' }, module), instance().then((one) => new Receiver(one))];
    assert.deepEqual((await Promise.all(made)).map((one) => [one.windowSize, one.window().rows.length]), made.map(() => [8, 8]));
    for (const draft of DRAFTS) {
      for (const window of WINDOWS) assert.deepEqual([(await receiver(window, draft)).windowSize, (await receiver(window, draft)).draft], [window, draft]);
      const others = [0, 1, 2, 3, 5, 7, 9, 12, 15, 17, 32, 64, 255, 260, 2 ** 16 + 8, 2 ** 32 - 1, 2 ** 32 + 8, -8, 8.5, NaN, Infinity, '8', null, [8], true];
      for (const window of others) await assert.rejects(receiver(window, draft), refusal(21));
    }
    await assert.rejects(Receiver.create(module, { window: 4 }), TypeError);
    const { exports } = await instance(), at = Number(exports.__heap_base.value), plain = new Uint8Array(exports.memory.buffer, at, SIZES.receiverImage);
    plain.fill(0xa5);
    assert.equal(exports.btpu_receiver_start(exports.__heap_base.value), 0);
    assert.deepEqual(plain, (await Receiver.create(module)).save().image);
  });

  for (const draft of DRAFTS) {
    await t.test(`the borders of the window: draft ${draft}`, async () => {
      for (const window of WINDOWS) {
        // By the distance from the greatest number: whether it is handed out, and whether it is the greatest then.
        const half = 2147483647 + window / 2;
        const table = [[1, true, true], [window, true, true], [half, true, true], [half + 1, false, false], [2 ** 32 - window, false, false],
          [2 ** 32 - window + 1, true, false], [2 ** 32 - 1, true, false], [0, false, false]];
        for (const greatest of [0, 5, 2 ** 31, 2 ** 32 - 3]) {
          for (const [distance, handed, moves] of table) {
            const r = await receiver(window, draft), number = (greatest + distance) % 2 ** 32;
            assert.equal(r.receive(whole(greatest, draft)).bundles.length, 1);
            assert.deepEqual(r.receive(whole(number, draft)).bundles.map((b) => b.number), handed ? [number] : [], `${window}: ${greatest} then ${number}`);
            assert.equal(r.window().greatest, moves ? number : greatest);
          }
        }
      }
    });

    await t.test(`a transfer that is as far behind as the window has rows is lost, with what was held of it: draft ${draft}`, async () => {
      for (const window of WINDOWS) {
        for (const [behind, expected] of [[window - 1, [9]], [window, []]]) {
          const r = await receiver(window, draft);
          r.receive(frame(pieceIn(draft, 9, 0, 2, [1])));
          r.receive(whole(9 + behind, draft));
          assert.equal(r.window().rows.filter((row) => row.phase === 'open').length, expected.length);
          assert.deepEqual(r.receive(frame(pieceIn(draft, 9, 1, 2, [2]))).bundles.map((b) => b.number), expected);
        }
      }
    });
  }

  await t.test('rows by the number modulo the window, each with its own part of the pool', async () => {
    for (const window of WINDOWS) {
      const r = await receiver(window), numbers = Array.from({ length: window }, (_, k) => (2 ** 32 - 3 + k) % 2 ** 32);
      for (const number of numbers) r.receive(frame(piece(false, number, 1, [number & 255, 7])));
      const { greatest, rows } = r.window(), { pool } = r.save();
      assert.equal(greatest, numbers.at(-1));
      assert.deepEqual(rows.map((row) => row.number % window), rows.map((row) => row.row));
      assert.deepEqual(rows.map((row) => row.number).sort((a, b) => a - b), [...numbers].sort((a, b) => a - b));
      for (const { row, number } of rows) assert.deepEqual([...pool.subarray(4096 * row, 4096 * row + 2)], [number & 255, 7]);
    }
  });

  await t.test('a pool of another length than the window asks for is not restored, and changes nothing', async () => {
    for (const window of WINDOWS) {
      const r = await receiver(window), saved = r.save();
      r.receive(whole(3));
      const before = r.save();
      for (const length of [0, 1, 4096 * window - 1, 4096 * window + 1, ...WINDOWS.filter((w) => w !== window).map((w) => 4096 * w)]) {
        assert.throws(() => r.restore({ image: saved.image, pool: new Uint8Array(length) }), RangeError);
        assert.deepEqual(r.save(), before);
      }
      r.restore(saved);
      assert.deepEqual(r.save(), saved);
    }
  });

  await t.test('what was saved before windows could be chosen is refused, and is a state of window 16 in all else', async () => {
    for (const draft of DRAFTS) {
      const old = await receiver(16, draft), r = await Receiver.create(module);
      old.receive(frame(pieceIn(draft, 9, 0, 2, [1])));
      old.receive(whole(20, draft));
      const saved = old.save(), before = r.save();
      saved.image[1] = 0;
      assert.throws(() => r.restore(saved), refusal(1));
      assert.deepEqual(r.save(), before);
      saved.image[1] = 16;
      r.restore(saved);
      assert.deepEqual(r.receive(frame(pieceIn(draft, 9, 1, 2, [2]))).bundles.map((b) => [...b.octets]), [[1, 2]]);
    }
  });

  await t.test('a playback has a window of 16', async () => {
    const numbers = Array.from({ length: 16 }, (_, k) => 100 + k), r = await Recorder.create(module);
    const frames = [0, 1].flatMap((k) => numbers.map((number) => frame(piece(k === 1, number, k, [number]))));
    const received = await Promise.all(WINDOWS.map(async (window) => (await receiver(window)).receiveAll(frames).bundles.map((b) => b.number)));
    assert.deepEqual(received, [numbers.slice(-4), numbers.slice(-8), numbers]);
    assert.deepEqual(r.play(r.record(frames)).bundles.map((b) => b[0]), numbers);
  });

  await t.test('the memory holds what is lent, and no page more: with a smaller window less, and with bursts only where there are some', async () => {
    const page = 65536, lent = { image: 3144, frame: 2049, output: 4096, result: 40 };
    for (const window of WINDOWS) {
      const one = await instance(), octets = () => one.exports.memory.buffer.byteLength, base = Number(one.exports.__heap_base.value);
      const r = new Receiver(one, { window }), needed = Object.values(lent).reduce((sum, n) => sum + n, base) + 4096 * window;
      assert.ok(octets() >= needed && octets() < needed + 16 * 5 + page, `${window}: ${octets()} octets for ${needed}`);
      const before = r.save();
      r.receiveAll([whole(1)]);
      const more = needed + 64 * 2049 + 65536 + 128 + 512 + 2048 + 256 + 256;
      assert.ok(octets() >= more && octets() < more + 16 * 12 + page, `${window} with bursts: ${octets()} octets for ${more}`);
      r.restore(before); // what was lent before the memory grew is used still
      assert.deepEqual(r.receive(whole(1)).bundles.map((b) => b.number), [1]);
      assert.deepEqual(r.receiveAll([whole(2), whole(3)]).bundles.map((b) => b.number), [2, 3]);
    }
  });

  await t.test('a receiver of window 4 goes on with greater windows, and with smaller ones again', async () => {
    const r = await receiver(4);
    for (const window of [4, 8, 16, 4, 16, 8]) {
      const other = await receiver(window);
      for (let k = 0; k < window; k++) other.receive(frame(piece(false, k, 0, Array(2000).fill(k + 1))));
      r.restore(other.save());
      const ends = Array.from({ length: window }, (_, k) => frame(piece(true, k, 1, Array(2000).fill(k + 1))));
      const bundles = ends.slice(0, 3).flatMap((end) => r.receive(end).bundles).concat(r.receiveAll(ends.slice(3)).bundles);
      assert.deepEqual(bundles.map((b) => [b.number, b.octets.length, b.octets.every((octet) => octet === b.number + 1)]), ends.map((_, k) => [k, 4000, true]));
    }
  });
}

test('load refuses what is no btpu module', async () => {
  await assert.rejects(load(Uint8Array.of(0, 97, 115, 109, 1, 0, 0, 0)), TypeError);
  await assert.rejects(load(Uint8Array.of(1, 2, 3)), WebAssembly.CompileError);
  await assert.rejects(load(new Response('', { status: 404 })), /404/);
  assert.ok((await load(new Response(file('btpu.wasm')))) instanceof WebAssembly.Module);
  assert.ok((await load()) instanceof WebAssembly.Module);
});

test('an engine that runs out of its own stack in a call ends the use of the receiver', async () => {
  const r = await Receiver.create(), long = frame(message(2, 128, chain(1022)));
  let trapped = 0;
  const deep = () => {
    try {
      deep();
    } catch (e) {
      if (!(e instanceof RangeError)) throw e;
    }
    if (trapped > 0) return;
    try {
      r.receive(long);
    } catch (e) {
      if (e instanceof TrapError) trapped++;
    }
  };
  deep();
  if (trapped > 0) assert.throws(() => r.receive(long), TrapError);
});

test('sizes and words are those of the C header and of the Rust crate', () => {
  const header = fs.readFileSync(path.join(repository, 'include/btpu.h'), 'utf8');
  const defined = (name) => Number(new RegExp(`#define ${name} (\\d+)`).exec(header)[1]);
  const names = {
    receiverImage: 'BTPU_RECEIVER_IMAGE', senderImage: 'BTPU_SENDER_IMAGE', output: 'BTPU_MIN_OUTPUT', bundle: 'BTPU_MAX_BUNDLE',
    plainWindow: 'BTPU_PLAIN_WINDOW', maxWindow: 'BTPU_MAX_WINDOW', playWindow: 'BTPU_PLAY_WINDOW',
    frame: 'BTPU_MAX_FRAME', recording: 'BTPU_MAX_RECORDING', recordedFrames: 'BTPU_RECORDED_FRAMES', recordedOctets: 'BTPU_RECORDED_OCTETS',
    playedBundles: 'BTPU_PLAYED_BUNDLES', burstFrames: 'BTPU_BURST_FRAMES', burstBundles: 'BTPU_BURST_BUNDLES',
  };
  const poolPerRow = Number(/#define BTPU_POOL\(window\) \(UINT32_C\((\d+)\) \* \(window\)\)/.exec(header)[1]);
  assert.deepEqual({ ...SIZES }, { poolPerRow, ...Object.fromEntries(Object.entries(names).map(([name, define]) => [name, defined(define)])) });
  const crate = fs.readFileSync(path.join(repository, 'hosts/rust/src/refusal.rs'), 'utf8');
  const numbers = [...header.matchAll(/#define BTPU_REFUSED_\w+ (\d+)/g)].map((m) => Number(m[1]));
  assert.equal(numbers.length, 21);
  for (const number of numbers) assert.ok(crate.includes(`"${words(number)}"`), words(number));
});

test('the types name what the module has, and nothing else', async () => {
  const types = fs.readFileSync(path.join(web, 'btpu.d.mts'), 'utf8'), module = await import('../btpu.mjs');
  assert.deepEqual([...types.matchAll(/^export (?:class|function|const) (\w+)/gm)].map((m) => m[1]).sort(), Object.keys(module).sort());
  for (const [, name, body] of types.matchAll(/^export class (\w+)(?: extends Error)? \{\n([^]*?)\n\}/gm)) {
    const members = [...body.matchAll(/^ {2}(static |get )?(\w+)\(/gm)].map((m) => `${m[1] ?? ''}${m[2]}`);
    const own = (of, kind) => Object.entries(Object.getOwnPropertyDescriptors(of)).filter(([, d]) => typeof (d.value ?? d.get) === 'function').map(([key, d]) => `${d.get ? 'get ' : kind}${key}`);
    assert.deepEqual(members.sort(), [...own(module[name], 'static '), ...own(module[name].prototype, '')].sort());
  }
});

test('timetables and notices', () => {
  const table = contentOf(text('Timetable: Mill Bridge\nEdition: 3\n8:05 Line R4 Platform 2 Upper Valley via Weir / Quarry, +5 min, late\n07:12 Stop 4 Mill Bridge - Old Town - Harbour, school days\nMind the gap\n'));
  assert.deepEqual(table, {
    kind: 'timetable',
    station: 'Mill Bridge',
    edition: 3,
    departures: [
      { time: '07:12', line: '', platform: '4', to: 'Harbour', via: 'Old Town', remark: 'school days' },
      { time: '08:05', line: 'R4', platform: '2', to: 'Upper Valley', via: 'Weir / Quarry', remark: '+5 min, late' },
    ],
    notes: ['Mind the gap'],
  });
  assert.deepEqual(contentOf(text('Line 4: no service on public holidays.\n')), { kind: 'notice', text: 'Line 4: no service on public holidays.' });
  for (const none of [new Uint8Array(0), text(' \n'), Uint8Array.of(0, 255, 3), text('a\u0001b')]) assert.equal(contentOf(none), null);
});

test('what a board shows: editions, notices, and no more than it keeps', () => {
  const show = (shown, s) => showing(shown, text(s));
  const first = show(NOTHING, 'Timetable: __proto__\nEdition: 2\n07:00 A'), second = show(first, 'Timetable: Weir\n07:00 B');
  assert.equal(tableOf(second, '').station, 'Weir');
  assert.equal(tableOf(second, '__proto__').edition, 2);
  assert.equal(show(second, 'Timetable: __proto__\nEdition: 1\n07:00 A'), second);
  assert.deepEqual(show(second, 'Timetable: __proto__\nEdition: 2\n09:00 A').timetables.map((x) => x.station), ['Weir', '__proto__']);
  assert.deepEqual(show(show(show(NOTHING, 'one'), 'two'), 'one').notices, ['two', 'one']);
  const many = Array.from({ length: 150 }, (_, k) => k).reduce((shown, k) => show(show(shown, `notice ${k}`), `Timetable: ${k}\n07:00 A`), NOTHING);
  assert.deepEqual([many.timetables.length, many.notices.length, many.notices.at(-1)], [100, 20, 'notice 149']);
});

test('three lines are enough in node', () => {
  const lines = "import { Receiver } from './btpu.mjs';\nconst receiver = await Receiver.create();\nconst { bundles } = receiver.receive(Uint8Array.of(2, 0, 0, 2, 104, 105));\nprocess.stdout.write(bundles[0].octets);";
  assert.equal(execFileSync(process.execPath, ['--input-type=module', '-e', lines], { cwd: web }).toString(), 'hi');
});
