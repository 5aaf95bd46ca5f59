// Writes sample.hex and sample-00.hex, a sample of what a control room sends in draft 02 and in draft 00, cut by the library's own sender:
// node hosts/web/make-sample.mjs
import fs from 'node:fs';
import { Sender } from './btpu.mjs';
import { writeHex } from './frames.mjs';
import { timetable } from './samples.mjs';

const MILL_BRIDGE = `Timetable: Mill Bridge
Edition: 1
07:05 Line R4 Platform 2 Upper Valley via Weir / Quarry
07:12 Line S1 Platform 1 Harbour via Old Town
07:18 Line S3 Platform 3 Lake End
07:24 Line RE Platform 4 Northgate via Old Town / Harbour, +6 min
07:35 Line R4 Platform 2 Upper Valley via Weir / Quarry, school days only
07:42 Line S1 Platform 1 Harbour via Old Town
07:48 Line S3 Platform 3 Lake End, cancelled
07:54 Line RE Platform 4 Northgate
08:05 Line R4 Platform 2 Upper Valley via Weir
08:12 Line S1 Platform 1 Harbour via Old Town
08:18 Line S3 Platform 3 Lake End
08:24 Line RE Platform 4 Northgate
08:35 Line R4 Platform 2 Upper Valley
`;
const SECOND_EDITION = MILL_BRIDGE
  .replace('Edition: 1', 'Edition: 2')
  .replace('Northgate via Old Town / Harbour, +6 min', 'Northgate via Old Town, +14 min')
  .replace('07:35 Line R4 Platform 2', '07:35 Line R4 Platform 5');
const UPPER_VALLEY = timetable('Upper Valley', '06:41', 30, 12, ['Line R4 # Mill Bridge via Quarry / Weir']);
const HARBOUR = timetable('Harbour', '06:35', 15, 16, ['Line S1 # Mill Bridge via Old Town', 'Line RE # Northgate']);
const LAKE_END = timetable('Lake End', '06:42', 30, 10, ['Line S3 # Mill Bridge']);
const OLD_TOWN = timetable('Old Town', '06:30', 10, 20, ['Line S1 # Harbour', 'Line S1 # Mill Bridge', 'Line RE # Northgate']);
const QUARRY = timetable('Quarry', '07:00', 30, 9, ['Line R4 # Upper Valley', 'Line R4 # Mill Bridge via Weir']);
const WEIR = timetable('Weir', '06:52', 30, 9, ['Line R4 # Mill Bridge', 'Line R4 # Upper Valley via Quarry']);
const NORTHGATE = timetable('Northgate', '06:45', 20, 14, ['Line RE # Harbour via Old Town / Mill Bridge']);

const BICYCLES = 'Line R4: bicycles are carried free of charge today.';
const LIFT = 'Harbour: the lift to platform 3 is out of order. Please use the ramp at the south end.';
const TREE = 'No service on Line S3 between Weir and Lake End until 09:00: a tree lies on the track. Buses run from the station square.';
const COUNTER = 'Mill Bridge: the ticket counter opens at 06:30 today.';
const FOREIGN = 'not for these boards';

const octets = (text) => new TextEncoder().encode(text);
const be32 = (x) => [x >>> 24, (x >>> 16) & 255, (x >>> 8) & 255, x & 255];

/** Bundles to their end, and the frames that they fill. */
function sent(sender, ...texts) {
  const frames = texts.flatMap((text) => sender.send(octets(text)));
  const rest = sender.flush();
  return rest === null ? frames : [...frames, rest];
}

/** So many calls of the sender for a bundle, whose transfer is then cancelled. */
function withdrawn(sender, text, calls) {
  const frames = Array.from({ length: calls }, () => sender.place(octets(text)).frame);
  sender.cancel();
  return [...frames, sender.flush()].filter((frame) => frame !== null);
}

/** The frames of the sample. */
async function sample(draft) {
  const sender = await Sender.create({ frameSize: 128, firstNumber: 0xfffffffa, draft });
  const first = sent(sender, MILL_BRIDGE, UPPER_VALLEY, BICYCLES, HARBOUR, LAKE_END);
  const second = sent(sender, OLD_TOWN, LIFT, QUARRY, WEIR);
  const cancelled = withdrawn(sender, NORTHGATE, 2);

  // Another maker's sender numbers a segment beyond 63; the next transfer number is taken by it, so ours passes it over.
  const segment = draft === '00' ? 4 : 3;
  const foreign = Uint8Array.from([segment, 0, 0, 8 + FOREIGN.length, ...be32(sender.nextNumber), ...be32(70), ...octets(FOREIGN)]);
  withdrawn(sender, 'x'.repeat(190), 1);
  // A newer one sets a reserved flag bit, which boards of draft 02 pass over; draft 00 has no flags, and its boards refuse the frame.
  const flagged = Uint8Array.from([2, 0x10, 0, COUNTER.length, ...octets(COUNTER)]);
  // And a frame is cut short on the way: boards refuse it.
  const short = second[0].slice(0, 90);

  const third = sent(sender, NORTHGATE, SECOND_EDITION, TREE);
  return [...first, ...second, ...first, ...cancelled, foreign, flagged, short, ...second, ...third, ...third];
}

for (const [draft, name, which] of [['02', 'sample.hex', ''], ['00', 'sample-00.hex', ' in draft 00']]) {
  const frames = await sample(draft);
  const title = `# A sample of what a control room sends${which}: ${frames.length} frames of at most 128 octets, one a line\n`;
  fs.writeFileSync(new URL(name, import.meta.url), title + writeHex(frames));
  console.log(`${name}: ${frames.length} frames`);
}
