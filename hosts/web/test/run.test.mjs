// A run in which one can go back, against playback by the library and against runs from the start. node --test test/run.test.mjs
import assert from 'node:assert/strict';
import fs from 'node:fs';
import path from 'node:path';
import test from 'node:test';
import { Receiver, Recorder, Sender, load } from '../btpu.mjs';
import { hexOf, messagesOf, numbers, overLink, readHex, readingHex, transfersOf } from '../frames.mjs';
import { Run } from '../run.mjs';
import { NOTHING, showing } from '../timetable.mjs';
import { cancel, chain, message, natively, octets, piece, sample, sample00, web } from './common.mjs';
import { withStack } from './starve.mjs';

const module = await load();
// Of window 16, as the library's playback is.
const receiver = await Receiver.create({ window: 16 }, module), receiver00 = await Receiver.create({ draft: '00' }, module);
const recorder = await Recorder.create(module);
const GOOD = { seed: 1, lose: 0, double: 0, shuffle: 0, damage: 0 }, BAD = { seed: 133, lose: 30, double: 12, shuffle: 12, damage: 14 };

/** All that a run shows at its position. */
const facts = (run) => ({
  position: run.position,
  counts: { ...run.counts },
  shown: run.shown,
  window: run.window,
  stopped: run.stopped,
  bundles: run.lastBundles(Infinity).map(({ arrival, bundle }) => [arrival, bundle.number, hexOf(bundle.octets)]),
  refused: run.lastRefused(Infinity),
  events: run.events.slice(0, run.position),
});

/** Frames with several messages, runs of padding, whole bundles, cancels, unknown messages, and refused frames. */
function mixedFrames(seed, count) {
  const { below, percent } = numbers(seed);
  const text = (k) => [...new TextEncoder().encode(`Timetable: Stop ${k % 3}\nEdition: ${k % 5}\n0${k % 10}:30 Line ${k} Quarry`)];
  const one = (k) => [
    () => message(2, 0, text(k)),
    () => Array(1 + below(9)).fill(0),
    () => piece(percent(50), below(6), below(4), text(k).slice(0, 1 + below(30))),
    () => cancel(below(6)),
    () => message(200 + below(50), 0, text(k).slice(0, below(9))),
    () => message(2, 128, [...chain(1 + below(3)), ...text(k).slice(0, 9)]),
  ][below(6)]();
  // Refused, but for those with reserved bits set.
  const reserved = ['02100000', '023000014102500001420500000400000002'];
  const spoilt = ['0200000441', '030000', '0000000500000300000000', '0280000102', ...reserved].map(octets);
  return Array.from({ length: count }, (_, k) => {
    if (percent(15)) return spoilt[below(spoilt.length)];
    return Uint8Array.from(Array.from({ length: 1 + below(6) }, () => one(k)).flat());
  });
}

/** Holds a run with every limit to the library's playback of the same frames. */
function holdLimits(frames) {
  const recording = recorder.record(frames), arrivals = overLink(frames, GOOD), all = recorder.play(recording).messages;
  for (let messages = 0; messages <= all + 1; messages++) {
    const run = new Run(receiver, arrivals, { messages }), expected = recorder.play(recording, { messages });
    run.goTo(Infinity);
    const { bundles, refused } = facts(run);
    assert.equal(run.messages, expected.messages, `limit ${messages}`);
    assert.deepEqual(bundles.map((b) => b[2]).reverse(), expected.bundles.map((b) => hexOf(b)), `bundles, limit ${messages}`);
    const refusals = refused.map(({ arrival, refusal: { number, words } }) => ({ frame: arrival, number, words })).reverse();
    assert.deepEqual(refusals, expected.refused, `refused, limit ${messages}`);
    assert.equal(run.stopped !== null, messages <= all, `whether it stopped, limit ${messages}`);
    assert.equal(run.atEnd, true);
    assert.equal(run.step(), false);
  }
  return all;
}

test('every limit of messages on the sample ends where the library ends', () => {
  assert.ok(holdLimits(sample) > 100);
});

test('every limit on frames with several messages, padding and refused frames', () => {
  for (const seed of [1, 2, 3]) assert.ok(holdLimits(mixedFrames(seed, 40)) > 60);
});

test('a limit inside a frame: how many of its messages were treated', () => {
  const frame = Uint8Array.from([...message(2, 0, [65]), 0, 0, 0, ...message(2, 0, [66]), ...cancel(7), 0]);
  assert.deepEqual(messagesOf(frame), [0, 5, 8, 13, 21]);
  for (const [messages, bundles, length] of [[1, 1, 5], [2, 1, 8], [3, 2, 13], [4, 2, 21], [5, 2, 22]]) {
    for (const taking of [receiver, receiver00]) {
      const run = new Run(taking, overLink([frame, frame], GOOD), { messages });
      assert.equal(run.goTo(2), 1);
      assert.deepEqual(run.stopped, { arrival: 0, messages, of: 5 });
      assert.deepEqual([run.counts.bundles, run.events[0].messages, run.events[0].length], [bundles, messages, length]);
      run.goTo(0);
      assert.equal(run.stopped, null);
      assert.equal(run.messages, 0);
    }
  }
});

test('in draft 00 a run shows what the native library makes of the frames, at its end and where it goes back to', () => {
  for (const link of [GOOD, BAD]) {
    const arrivals = overLink(sample00, link), run = new Run(receiver00, arrivals);
    for (const position of [arrivals.length, 40, 90, 7, arrivals.length]) {
      run.goTo(position);
      const came = [...arrivals.keys()].filter((k) => k < position && !arrivals[k].lost), { bundles, refused, window } = facts(run);
      const expected = natively(came.map((k) => arrivals[k].frame), { draft: '00' });
      assert.deepEqual(bundles.reverse(), expected.bundles.map((b) => [came[b.frame], b.number === '-' ? null : +b.number, b.octets]));
      assert.deepEqual(refused.map((x) => x.arrival).reverse(), expected.refused.map((x) => came[x.frame]));
      assert.deepEqual(window, { greatest: expected.greatest, rows: expected.rows });
    }
    assert.ok(run.counts.bundles > 5 && run.counts.refused > 1);
  }
});

test('lost frames are passed, and nothing behind the last message is', () => {
  const arrivals = overLink([octets('0200000141'), octets('0200000142'), octets('0200000143')], GOOD);
  arrivals[1].lost = true;
  const run = new Run(receiver, arrivals, { messages: 2 });
  run.goTo(3);
  assert.deepEqual(run.events.map((e) => e.fate), ['taken', 'lost', 'taken']);
  const shorter = new Run(receiver, arrivals, { messages: 1 });
  assert.equal(shorter.goTo(3), 1);
  assert.equal(shorter.counts.lost, 0);
});

test('going back and forth shows what a run from the start shows', async () => {
  const arrivals = overLink([...sample, ...mixedFrames(9, 300), ...sample], BAD), { below } = numbers(4);
  for (const [limit, window] of [[{}, 16], [{ messages: 333 }, 16], [{}, 4]]) {
    const [one, second] = await Promise.all([0, 1].map(() => Receiver.create({ window }, module))), run = new Run(one, arrivals, limit);
    for (let k = 0; k < 60; k++) {
      const position = below(arrivals.length + 1), straight = new Run(second, arrivals, limit);
      while (straight.position < position && straight.step()) { /* on */ }
      run.goTo(position);
      assert.deepEqual(facts(run), facts(straight), `position ${position}`);
    }
    assert.ok(run.events.length > 150, `${run.events.length} arrivals`);
  }
});

test('what a board shows is folded over the bundles up to the position', () => {
  const run = new Run(receiver, overLink(sample, BAD));
  let shown = NOTHING;
  const states = [shown];
  while (run.step()) {
    for (const { octets: content } of run.events[run.position - 1].bundles) shown = showing(shown, content);
    states.push(shown);
  }
  assert.ok(new Set(states).size > 4);
  for (let position = run.length; position >= 0; position -= 7) {
    run.goTo(position);
    assert.deepEqual(run.shown, states[position]);
  }
});

test('the pieces that came with an arrival are those that the window did not hold before', async () => {
  const piecesOf = (row) => (row.phase === 'open' ? row.pieces.map((p) => `${row.number} ${row.row} ${p.index}`) : []);
  // The last one is a transfer that takes the row of another, in each window.
  const taking = [piece(false, 3, 0, [65]), piece(false, 19, 0, [66])].map((octets) => Uint8Array.from(octets));
  const links = [overLink([...sample, ...mixedFrames(5, 200)], BAD), overLink(taking, GOOD)];
  let seen = 0;
  for (const [arrivals, window] of links.flatMap((link) => [4, 8, 16].map((size) => [link, size]))) {
    const [one, second] = await Promise.all([0, 1].map(() => Receiver.create({ window }, module))), run = new Run(one, arrivals);
    let before = new Set();
    for (const arrival of arrivals) {
      run.step();
      if (!arrival.lost) second.receive(arrival.frame);
      const after = new Set(second.window().rows.flatMap(piecesOf));
      const fresh = [...after].filter((one) => !before.has(one)).map((one) => one.split(' ').slice(1).join(' '));
      assert.deepEqual(run.events[run.position - 1].pieces.map((p) => `${p.row} ${p.index}`), fresh);
      before = after;
      seen += fresh.length;
    }
  }
  assert.ok(seen > 40, `${seen} pieces`);
});

test('a trap ends the run, and is said', async () => {
  const starved = withStack(fs.readFileSync(path.join(web, 'btpu.wasm')), 8192);
  const long = Uint8Array.from(message(2, 128, chain(1022)));
  const run = new Run(await Receiver.create(starved), overLink([octets('0200000141'), long, octets('0200000142')], GOOD));
  assert.equal(run.goTo(3), 1);
  assert.match(run.broken.words, /trapped/);
  assert.equal(run.broken.arrival, 1);
  assert.equal(run.goTo(0), 1);
  assert.equal(run.counts.bundles, 1);
  assert.equal(run.window.greatest, null);
});

test('a long run keeps few checkpoints and goes back at once', async () => {
  // One transfer a frame: nothing else is saved then.
  const few = sample.filter((frame) => transfersOf(frame, '02').length < 2), frames = Array.from({ length: 20000 }, (_, k) => few[k % few.length]);
  const run = new Run(receiver, overLink(frames, GOOD));
  let saved = 0;
  const save = receiver.save.bind(receiver);
  receiver.save = () => { saved++; return save(); };
  run.goTo(20000);
  assert.ok(saved <= 128, `${saved} saved`);
  let received = 0;
  const receive = receiver.receive.bind(receiver);
  receiver.receive = (frame) => { received++; return receive(frame); };
  run.goTo(10000);
  delete receiver.save;
  delete receiver.receive;
  assert.ok(received < 200, `${received} frames again`);
  assert.equal(run.position, 10000);
});

test('hex: what is read, what is left out, and how far it is', () => {
  const { frames, faults } = readHex('# a\r\n0a FF\r\rzz\n123\n \n\t0 1\u00a002 # x\n  #\nAb');
  assert.deepEqual(frames.map((f) => hexOf(f)), ['0aff', 'ab']);
  assert.deepEqual(faults, [{ line: 4, words: 'not hex' }, { line: 5, words: 'half an octet is missing' }, { line: 7, words: 'not hex' }]);
  const text = '0102030405060708\n'.repeat(20000), said = [...readingHex(text)];
  assert.ok(said.length >= 4 && said.every((n, k) => n <= text.length && n > (said[k - 1] ?? 0)));
  assert.equal(readHex(text).frames.length, 20000);
});

test('frames cut by the sender have the messages that the library treats', async () => {
  const sender = await Sender.create({ frameSize: 200, firstNumber: 5 }, module);
  const frames = [1, 30, 200, 700, 60, 60, 4096].flatMap((length) => sender.send(new Uint8Array(length).fill(length)));
  frames.push(sender.flush());
  const count = frames.reduce((sum, frame) => sum + messagesOf(frame).length, 0);
  assert.equal(recorder.play(recorder.record(frames)).messages, count);
});
