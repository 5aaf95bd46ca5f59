// The WebAssembly modules against the native library, call by call, in Chromium.
import path from 'node:path';
import test from 'node:test';
import { chromium, serve } from './chromium.mjs';
import { here, web } from './common.mjs';
import { judge, prepare } from './native.mjs';

/** In a page: compares a module of the server. */
const comparison = (name) => `(async () => {
  const { compare } = await import('/test/compare.mjs');
  const get = async (file) => new Uint8Array(await (await fetch(file)).arrayBuffer());
  const { instance } = await WebAssembly.instantiate(await get('/${name}'));
  return compare(instance, await get('/operations'), await get('/answers'));
})()`;

test('in Chromium the modules answer as the native library does', async (t) => {
  const { operations, answers } = prepare();
  const site = await serve({ '/': web, '/test/': here });
  t.after(() => site.close());
  site.made.set('/operations', operations);
  site.made.set('/answers', answers);
  site.made.set('/empty.html', '<!doctype html><title>test</title>');
  const browser = await chromium();
  t.after(() => browser.close());
  const page = await browser.page(`${site.address}/empty.html`);
  for (const name of ['btpu.wasm', 'btpu64.wasm']) {
    await t.test(name, async () => {
      console.log(judge(`${browser.version}, ${name}`, await page.evaluate(comparison(name))));
    });
  }
});
