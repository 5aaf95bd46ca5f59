// The pages packed into single files, opened from file: in headless Chromium; and what can't be packed.
import assert from 'node:assert/strict';
import { spawnSync } from 'node:child_process';
import fs from 'node:fs';
import path from 'node:path';
import test, { after, before } from 'node:test';
import { pathToFileURL } from 'node:url';
import { chromium } from './chromium.mjs';
import { natively, sample, sample00, temporary, web } from './common.mjs';

const out = path.join(temporary, 'packed');
const fileAddress = (name, words = '') => `${pathToFileURL(path.join(out, name))}${words}`;

let browser;
before(async () => {
  const { status, stderr } = spawnSync(process.execPath, [path.join(web, 'pack.mjs'), out], { encoding: 'utf8' });
  assert.equal(status, 0, stderr);
  browser = await chromium();
});
after(async () => {
  await browser?.close();
});

/** Runs in a page, which is closed then, and of which no error may be logged. */
async function withPage(url, run) {
  const page = await browser.page(url);
  try {
    await page.until('document.body.dataset.ready');
    assert.equal(await page.evaluate('document.body.dataset.ready'), 'yes', await page.evaluate('document.body.textContent.slice(0, 400)'));
    await run(page);
    assert.deepEqual(page.errors, []);
  } finally {
    await page.close();
  }
}

test('two files and nothing else are written', () => {
  assert.deepEqual(fs.readdirSync(out).sort(), ['board.html', 'desk.html']);
});

test('the board from file: plays the sample, keeps its state over a reload and needs no other file', { timeout: 30000 }, async () => {
  const url = fileAddress('board.html', '?now=07:10&station=Mill%20Bridge');
  await withPage(url, async (page) => {
    const rows = () => page.evaluate(`[...document.querySelectorAll('#departures tbody tr')].map((tr) => tr.textContent)`);
    await page.evaluate(`document.getElementById('demo').click()`);
    await page.until(`document.querySelectorAll('#departures tbody tr').length > 3`);
    const before = await rows();
    await page.open(url);
    await page.until('document.body.dataset.ready');
    assert.deepEqual(await rows(), before);
    assert.deepEqual(await page.evaluate(`performance.getEntriesByType('resource').map((entry) => entry.name)`), []);
    await page.evaluate(`document.getElementById('choose').value = '';
      document.getElementById('choose').dispatchEvent(new Event('change'))`);
    assert.equal(await page.evaluate(`document.getElementById('station').textContent`), 'Mill Bridge');
  });
});

for (const [draft, frames] of [['02', sample], ['00', sample00]]) {
  test(`the desk from file: runs the sample of draft ${draft} to its end`, { timeout: 30000 }, async () => {
    await withPage(fileAddress('desk.html'), async (page) => {
      await page.evaluate(`document.getElementById('draft').value = '${draft}'; document.getElementById('sample').click()`);
      await page.until(`!document.getElementById('end').disabled`);
      await page.evaluate(`document.getElementById('end').click()`);
      const { bundles } = natively(frames, { draft });
      await page.until(`document.querySelectorAll('#bundles > li').length === ${bundles.length}`);
    });
  });
}

/** Packs a copy of the folder that was changed, and answers the words and status. */
function packChanged(name, change) {
  const folder = path.join(temporary, name, 'hosts/web');
  fs.mkdirSync(folder, { recursive: true });
  const files = fs.readdirSync(web).filter((file) => /\.(mjs|html|css|hex|wasm)$/.test(file));
  for (const file of files) fs.copyFileSync(path.join(web, file), path.join(folder, file));
  change((file, edit) => fs.writeFileSync(path.join(folder, file), edit(fs.readFileSync(path.join(folder, file), 'utf8'))), folder);
  const to = path.join(temporary, name, 'out');
  const { status, stderr } = spawnSync(process.execPath, [path.join(folder, 'pack.mjs'), to], { encoding: 'utf8' });
  return { status, stderr, written: fs.existsSync(to) ? fs.readdirSync(to) : [] };
}

const REFUSED = {
  'no module': [/run hosts\/web\/build first/, (_, folder) => fs.rmSync(path.join(folder, 'btpu.wasm'))],
  'an import of another kind': [/dom\.mjs has an import/, (edit) => edit('dom.mjs', (text) => `import fs from 'node:fs';\n${text}`)],
  'an import of what is not exported': [/imports nothing from/,
    (edit) => edit('board.mjs', (text) => `import { nothing } from './dom.mjs';\n${text}`)],
  'an export of another kind': [/frames\.mjs has an export/, (edit) => edit('frames.mjs', (text) => `${text}\nexport default 1;\n`)],
  'modules that import each other': [/imports itself/,
    (edit) => edit('frames.mjs', (text) => `import { make } from './dom.mjs';\n${text}`),
    (edit) => edit('dom.mjs', (text) => `import { readHex } from './frames.mjs';\n${text}`)],
  'a module that waits': [/no script when packed/, (edit) => edit('frames.mjs', (text) => `${text}\nawait 0;\n`)],
  'the end of a script': [/ends or hides a script/, (edit) => edit('dom.mjs', (text) => `${text}\nexport const tag = '</script>';\n`)],
  'a page without its script': [/has not exactly one/, (edit) => edit('board.html', (text) => text.replace('board.mjs', 'other.mjs'))],
};
for (const [what, [words, ...changes]] of Object.entries(REFUSED)) {
  test(`refused in words, and nothing is written: ${what}`, () => {
    const { status, stderr, written } = packChanged(what, (edit, folder) => changes.forEach((change) => change(edit, folder)));
    assert.equal(status, 1);
    assert.match(stderr, /^pack: /);
    assert.match(stderr, words);
    assert.deepEqual(written, []);
  });
}
