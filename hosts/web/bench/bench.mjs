// Times the native library and the modules, in node and in Chromium, in one run and in turn:
//   node --experimental-wasm-memory64 bench.mjs [--rounds N] [--ms N]
// For each workload nanoseconds for each call (of a burst: each frame), the median of the rounds, and the ratio to native; then the
// wrapper, for each frame.
import { execFileSync } from 'node:child_process';
import fs from 'node:fs';
import os from 'node:os';
import path from 'node:path';
import { fileURLToPath } from 'node:url';
import { parseArgs } from 'node:util';
import { gzipSync } from 'node:zlib';
import { Receiver } from '../btpu.mjs';
import { chromium, serve } from '../test/chromium.mjs';
import { nativeProgram, temporary, web } from '../test/common.mjs';
import { isWrapped, pack, runner, time, WINDOW, workloads, wrapped } from './work.mjs';

const { values } = parseArgs({ options: { rounds: { type: 'string', default: '9' }, ms: { type: 'string', default: '40' } } });
const rounds = Number(values.rounds), ms = Number(values.ms);
const here = path.dirname(fileURLToPath(import.meta.url));
const names = ['btpu.wasm', 'btpu-plain.wasm', 'btpu64.wasm'];
const modules = names.map((name) => ({ name, octets: fs.readFileSync(path.join(web, name)) }));
const list = workloads();

/** The native library: a function that times all workloads. */
function natively() {
  const program = nativeProgram(path.join(here, 'bench.c')), file = path.join(temporary, 'work');
  fs.writeFileSync(file, pack(list));
  return () => [['native', execFileSync(program, [file, `${ms}`]).toString().trim().split('\n').map(Number)]];
}

async function inNode() {
  const sides = [];
  for (const { name, octets } of modules.filter(({ octets }) => WebAssembly.validate(octets))) {
    const { instance } = await WebAssembly.instantiate(octets);
    sides.push([`node ${name}`, list.map((work) => runner(instance, work))]);
  }
  const receiver = await Receiver.create({ window: WINDOW }, modules[0].octets);
  sides.push(['wrapper, node', list.map((work) => (isWrapped(work) ? wrapped(receiver, work) : null))]);
  return () => sides.map(([name, runs]) => [name, runs.map((run) => run && time(run, ms))]);
}

/** In a page: makes the runs of all modules, and of the wrapper. */
const PREPARE = `(async () => {
  const { isWrapped, runner, time, WINDOW, workloads, wrapped } = await import('/bench/work.mjs');
  const { Receiver } = await import('/btpu.mjs');
  const list = workloads();
  window.sides = [];
  for (const name of ${JSON.stringify(names)}) {
    const { instance } = await WebAssembly.instantiateStreaming(fetch('/' + name));
    sides.push(['Chromium ' + name, list.map((work) => runner(instance, work))]);
  }
  const receiver = await Receiver.create({ window: WINDOW });
  sides.push(['wrapper, Chromium', list.map((work) => (isWrapped(work) ? wrapped(receiver, work) : null))]);
  window.timed = (ms) => sides.map(([name, runs]) => [name, runs.map((run) => run && time(run, ms))]);
})()`;

async function inChromium(browser, site) {
  site.made.set('/empty.html', '<!doctype html><title>bench</title>');
  const page = await browser.page(`${site.address}/empty.html`);
  await page.evaluate(PREPARE);
  return () => page.evaluate(`timed(${ms})`);
}

/** All sides in turn; the first round is not counted. Answers the times by side and workload. */
async function measure(timers) {
  const sides = new Map();
  for (let round = 0; round <= rounds; round++) {
    for (const timer of timers) {
      for (const [name, found] of await timer()) {
        if (!sides.has(name)) sides.set(name, list.map(() => []));
        found.forEach((value, k) => round > 0 && value !== null && sides.get(name)[k].push(value));
      }
    }
  }
  return sides;
}

const median = (values) => [...values].sort((a, b) => a - b)[values.length >> 1];

function table(head, rows) {
  console.log(`\n| ${head.join(' | ')} |`);
  console.log(`|${head.map((_, k) => (k === 0 ? '---|' : '---:|')).join('')}`);
  for (const row of rows) console.log(`| ${row.join(' | ')} |`);
}

function report(sides, version) {
  const calls = [...sides.keys()].filter((name) => !name.startsWith('wrapper'));
  const wrappers = [...sides.keys()].filter((name) => name.startsWith('wrapper'));
  console.log(`${version}, node ${process.version}, ${os.cpus()[0].model}; medians of ${rounds} rounds of ${ms} ms in turn`);
  console.log('\nNanoseconds for each call of the library, of a burst for each frame, and times native:');
  table(['workload', ...calls], list.map((work, k) => {
    const base = median(sides.get('native')[k]);
    return [work.name, ...calls.map((name) => {
      const value = median(sides.get(name)[k]);
      return name === 'native' ? value.toFixed(0) : `${value.toFixed(0)} (${(value / base).toFixed(2)})`;
    })];
  }));
  console.log('\nMicroseconds for each frame through Receiver.receive of btpu.mjs, of a burst receiveAll, with btpu.wasm:');
  const received = list.map((work, k) => ({ work, k })).filter(({ work }) => isWrapped(work));
  table(['workload', 'frames', ...wrappers], received.map(({ work, k }) => {
    return [work.name, work.items.length, ...wrappers.map((name) => (median(sides.get(name)[k]) / 1000).toFixed(2))];
  }));
  table(['module', 'octets', 'gzipped'], modules.map(({ name, octets }) => [name, octets.length, gzipSync(octets, { level: 9 }).length]));
}

const site = await serve({ '/': web, '/bench/': here });
const browser = await chromium();
try {
  report(await measure([natively(), await inNode(), await inChromium(browser, site)]), browser.version);
} finally {
  await browser.close();
  site.close();
}
