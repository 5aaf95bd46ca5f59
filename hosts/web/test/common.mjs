// What the tests share: where things are, the native library's answers, and what a page shows to those who see and those who don't.
import { execFileSync } from 'node:child_process';
import fs from 'node:fs';
import os from 'node:os';
import path from 'node:path';
import { fileURLToPath } from 'node:url';
import { readWindow } from '../btpu.mjs';
import { readHex, writeHex } from '../frames.mjs';

export const here = path.dirname(fileURLToPath(import.meta.url));
export const web = path.dirname(here);
export const repository = path.join(web, '../..');

/** A folder that is removed when the process ends. */
export const temporary = fs.mkdtempSync(path.join(os.tmpdir(), 'btpu-web-'));
process.on('exit', () => fs.rmSync(temporary, { recursive: true, force: true }));

/** Compiles a program in C over the native library and answers where it is. */
export function nativeProgram(file) {
  const program = path.join(temporary, path.basename(file, '.c'));
  if (fs.existsSync(program)) return program;
  const library = path.join(repository, 'target/staticlib/libboard.a');
  execFileSync(process.env.CC ?? 'cc', ['-O2', '-std=c11', '-Wall', '-Wextra', '-Werror', `-I${path.join(repository, 'include')}`, '-o', program, file, library]);
  return program;
}

/** The lines that play.c writes of frames, as words. */
function played(frames, ...words) {
  const out = execFileSync(nativeProgram(path.join(here, 'play.c')), words, { input: writeHex(frames), maxBuffer: 1 << 28 }).toString();
  return out.trim().split('\n').map((line) => line.split(' '));
}

const windowIn = ([, image]) => readWindow(octets(image));

/** What the native library makes of frames of a draft, with a window: bundles, refused frames, and the window at the end. */
export function natively(frames, { draft = '02', window = 8 } = {}) {
  const lines = played(frames, draft, `${window}`);
  return {
    bundles: lines.filter(([kind]) => kind === 'bundle').map(([, frame, number, octets = '']) => ({ frame: +frame, number, octets })),
    refused: lines.filter(([kind]) => kind === 'refused').map(([, frame, number, place]) => ({ frame: +frame, number, place })),
    ...windowIn(lines.at(-1)),
  };
}

/** The windows that the native library has after each of the frames. */
export const windowsAfter = (frames, { draft, window }) => played(frames, draft, `${window}`, 'each').filter(([kind]) => kind === 'image').map(windowIn);

export const octets = (hex) => Uint8Array.from(Buffer.from(hex.replace(/ /g, ''), 'hex'));
const sampleIn = (file) => readHex(fs.readFileSync(path.join(web, file), 'utf8')).frames;
export const sample = sampleIn('sample.hex');
export const sample00 = sampleIn('sample-00.hex');

// Messages of document 01, as octets.
const be32 = (x) => [x >>> 24, (x >>> 16) & 255, (x >>> 8) & 255, x & 255];
export const message = (type, flags, content) => [type, flags | (content.length >>> 16), (content.length >>> 8) & 255, content.length & 255, ...content];
export const piece = (end, number, index, data, hints = []) => message(end ? 4 : 3, hints.length ? 128 : 0, [...hints, ...be32(number), ...be32(index), ...data]);
/** In draft 00: a start, or a segment. */
export const piece00 = (start, number, index, data) => message(start ? 3 : 4, 0, [...be32(number), ...be32(index), ...data]);
/** The k-th of so many pieces, as they are joined, from 0: the last one has the highest index; in draft 00 the first one. */
export function pieceIn(draft, number, k, count, data) {
  return draft === '00' ? piece00(k === 0, number, count - 1 - k, data) : piece(k === count - 1, number, k, data);
}
export const cancel = (number) => message(5, 0, be32(number));
/** A chain of so many hints without a value; the longest that a frame has room for has 1,022. */
export const chain = (count) => Array.from({ length: count }, (_, k) => [k + 1 < count ? 3 : 2, 0]).flat();

/** In a page: the texts that are seen with the least contrast to what lies behind them. */
export const leastContrast = (page) => page.evaluate(`(() => {
  const channel = (c) => { c /= 255; return c <= 0.03928 ? c / 12.92 : ((c + 0.055) / 1.055) ** 2.4; };
  const rgb = (s) => { const m = s.match(/[\\d.]+/g).map(Number); return { c: m.slice(0, 3), a: m[3] ?? 1 }; };
  const light = ([r, g, b]) => 0.2126 * channel(r) + 0.7152 * channel(g) + 0.0722 * channel(b);
  const found = [];
  const walk = document.createTreeWalker(document.body, NodeFilter.SHOW_TEXT);
  for (let n; (n = walk.nextNode());) {
    const e = n.parentElement;
    if (!n.textContent.trim() || !e.checkVisibility() || e.closest('.only-read, script, style, option, :disabled')) continue;
    let b = e; while (b && rgb(getComputedStyle(b).backgroundColor).a < 1) b = b.parentElement;
    const x = light(rgb(getComputedStyle(e).color).c), y = light(b ? rgb(getComputedStyle(b).backgroundColor).c : [255, 255, 255]);
    found.push({ text: n.textContent.trim().slice(0, 30), ratio: (Math.max(x, y) + 0.05) / (Math.min(x, y) + 0.05) });
  }
  return found.sort((p, q) => p.ratio - q.ratio)[0];
})()`);

/** Controls and pictures of a page that have no name for those who don't see them. */
export async function unnamed(page) {
  await page.send('Accessibility.enable');
  const { nodes } = await page.send('Accessibility.getFullAXTree');
  const named = /^(button|textbox|slider|spinbutton|checkbox|combobox|image|img|table|progressbar|DisclosureTriangle)$/;
  return nodes.filter((n) => !n.ignored && named.test(n.role?.value) && !n.name?.value).map((n) => n.role.value);
}
