// Headless Chromium from node with nothing else installed: the DevTools protocol over a pipe; and a server of files for this machine alone.
import { spawn } from 'node:child_process';
import fs from 'node:fs';
import http from 'node:http';
import os from 'node:os';
import path from 'node:path';

const TYPES = {
  '.html': 'text/html; charset=utf-8',
  '.mjs': 'text/javascript; charset=utf-8',
  '.css': 'text/css; charset=utf-8',
  '.wasm': 'application/wasm',
  '.hex': 'text/plain; charset=utf-8',
};
const PROGRAMS = ['chromium', 'chromium-browser', 'google-chrome'];
const KEYS = { Tab: 9, Enter: 13, Escape: 27, ' ': 32, End: 35, Home: 36, ArrowLeft: 37, ArrowUp: 38, ArrowRight: 39, ArrowDown: 40 };

const after = (ms) => new Promise((ok) => setTimeout(ok, ms));

/** Serves folders, each below its own name: serve({ '/': folder }). `made` holds further files, which go before those of the folders. */
export async function serve(folders) {
  const made = new Map();
  const names = Object.keys(folders).sort((a, b) => b.length - a.length);
  const server = http.createServer((request, answer) => {
    const name = decodeURIComponent(new URL(request.url, 'http://localhost').pathname);
    const reply = (status, octets) => {
      answer.writeHead(status, { 'content-type': TYPES[path.extname(name)] ?? 'application/octet-stream', 'cache-control': 'no-store' });
      answer.end(octets);
    };
    const under = names.find((folder) => name.startsWith(folder));
    if (made.has(name)) reply(200, made.get(name));
    else if (under === undefined) reply(404, '');
    else {
      const file = path.join(folders[under], path.normalize(name.slice(under.length)));
      fs.readFile(file, (error, octets) => (error ? reply(404, '') : reply(200, octets)));
    }
  });
  await new Promise((ok) => server.listen(0, '127.0.0.1', ok));
  const close = () => {
    server.closeAllConnections();
    server.close();
  };
  return { address: `http://127.0.0.1:${server.address().port}`, made, close };
}

/** The program that CHROMIUM names, or the first of the usual ones that is on the path. */
function installed() {
  if (process.env.CHROMIUM) return process.env.CHROMIUM;
  const folders = (process.env.PATH ?? '').split(path.delimiter).filter(Boolean);
  const found = PROGRAMS.find((name) => folders.some((folder) => fs.existsSync(path.join(folder, name))));
  if (found === undefined) throw new Error(`none of ${PROGRAMS.join(', ')} is on the path: install one, or set CHROMIUM to a program`);
  return found;
}

/** Starts the program: its third and fourth pipe carry the DevTools protocol. */
function launch(program, home, words) {
  const root = process.getuid?.() === 0 ? ['--no-sandbox'] : []; // Chromium refuses its sandbox to root
  const own = ['--headless=new', ...root, '--disable-gpu', '--disable-dev-shm-usage', '--no-first-run', '--hide-scrollbars'];
  const all = [...own, '--force-color-profile=srgb', `--user-data-dir=${home}`, '--remote-debugging-pipe', ...words, 'about:blank'];
  return spawn(program, all, { stdio: ['ignore', 'ignore', 'ignore', 'pipe', 'pipe'] });
}

/** Calls `take` with each message of a stream in which an octet 0 ends a message. */
function eachMessage(stream, take) {
  let parts = [];
  stream.on('data', (octets) => {
    let from = 0;
    for (let end = octets.indexOf(0); end >= 0; end = octets.indexOf(0, from)) {
      parts.push(octets.subarray(from, end));
      take(JSON.parse(Buffer.concat(parts).toString()));
      parts = [];
      from = end + 1;
    }
    parts.push(octets.subarray(from));
  });
}

/** The protocol over the pipes of a program: `send` answers a promise, `heard` holds functions that are told the events. */
function connect(child, program) {
  const waiting = new Map();
  const heard = new Set();
  let id = 0;
  let ended = null;
  const end = (error) => {
    ended ??= error;
    for (const { no } of waiting.values()) no(ended);
    waiting.clear();
  };
  child.on('error', (error) => end(new Error(`${program} did not start: ${error.message}`)));
  child.on('exit', (code, signal) => end(new Error(`${program} ended (${code ?? signal})`)));
  child.stdio[3].on('error', end);
  eachMessage(child.stdio[4], (message) => {
    if (!message.id) return heard.forEach((tell) => tell(message));
    const { ok, no, method } = waiting.get(message.id) ?? {};
    waiting.delete(message.id);
    if (message.error) no?.(new Error(`${message.error.message} (${method})`));
    else ok?.(message.result);
  });
  const send = (method, params = {}, sessionId = undefined) => new Promise((ok, no) => {
    if (ended) return no(ended);
    waiting.set(++id, { ok, no, method });
    child.stdio[3].write(`${JSON.stringify({ id, method, params, sessionId })}\0`);
  });
  return { send, heard };
}

/** The words of an exception in a page. */
const thrown = ({ exception, text }) => exception?.description ?? text;

/** The error that an event of a page tells of, or null. */
function errorOf({ method, params }) {
  if (method === 'Runtime.exceptionThrown') return thrown(params.exceptionDetails);
  if (method === 'Runtime.consoleAPICalled' && params.type === 'error') return params.args.map((a) => a.value ?? a.description).join(' ');
  if (method !== 'Log.entryAdded' || params.entry.level !== 'error' || /favicon/.test(params.entry.url ?? '')) return null;
  return `${params.entry.text} ${params.entry.url ?? ''}`;
}

/** What a page can be asked to do, over its own session. */
class Page {
  /**
   * Errors that the page logged or threw.
   * @type {string[]}
   */
  errors = [];

  constructor(send, close) {
    this.send = send;
    this.close = close;
  }

  /** The value of an expression in the page; a promise is waited for. */
  async evaluate(expression) {
    const { result, exceptionDetails } = await this.send('Runtime.evaluate', { expression, awaitPromise: true, returnByValue: true });
    if (exceptionDetails) throw new Error(thrown(exceptionDetails));
    return result.value;
  }

  /** Waits until an expression is true. */
  async until(expression, ms = 20000) {
    let last = '';
    for (const from = Date.now(); Date.now() - from < ms; await after(40)) {
      try {
        if (await this.evaluate(expression)) return;
      } catch (e) {
        last = `; at last: ${e.message}`; // the page may still be coming
      }
    }
    throw new Error(`not within ${ms} ms: ${expression}${last}`);
  }

  async open(url) {
    // Until this mark is gone an expression might still be evaluated in the document that is left.
    await this.evaluate('window.__left = true');
    const { errorText, loaderId } = await this.send('Page.navigate', { url });
    if (errorText) throw new Error(`${url}: ${errorText}`);
    const another = loaderId === undefined ? 'true' : 'window.__left === undefined';
    await this.until(`${another} && document.readyState === 'complete'`);
  }

  async screenshot(file) {
    const { data } = await this.send('Page.captureScreenshot', { format: 'png' });
    fs.writeFileSync(file, Buffer.from(data, 'base64'));
  }

  /** Presses a key and lets it go. */
  async key(name, code = name, text = undefined) {
    const key = { key: name, code, windowsVirtualKeyCode: KEYS[name] };
    await this.send('Input.dispatchKeyEvent', { ...key, type: 'keyDown', text });
    await this.send('Input.dispatchKeyEvent', { ...key, type: 'keyUp' });
  }

  /** Gives files to a file input. */
  async files(selector, names) {
    const { root } = await this.send('DOM.getDocument');
    const { nodeId } = await this.send('DOM.querySelector', { nodeId: root.nodeId, selector });
    await this.send('DOM.setFileInputFiles', { nodeId, files: names });
  }

  async size(width, height) {
    await this.send('Emulation.setDeviceMetricsOverride', { width, height, deviceScaleFactor: 1, mobile: false });
  }
}

/** A new page, opened at an address. */
async function newPage({ send, heard }, url, { width = 1280, height = 800 } = {}) {
  const { targetId } = await send('Target.createTarget', { url: 'about:blank' });
  const { sessionId } = await send('Target.attachToTarget', { targetId, flatten: true });
  const tell = (message) => {
    const error = message.sessionId === sessionId ? errorOf(message) : null;
    if (error !== null) page.errors.push(error);
  };
  const page = new Page((method, params) => send(method, params, sessionId), async () => {
    heard.delete(tell);
    await send('Target.closeTarget', { targetId });
  });
  heard.add(tell);
  for (const domain of ['Runtime', 'Log', 'Page']) await page.send(`${domain}.enable`);
  await page.size(width, height);
  await page.open(url);
  return page;
}

/** Ends the program, by force where it does not end within 5 s. */
async function quit(child, send) {
  try {
    await send('Browser.close');
  } catch {
    // it is gone already
  }
  if (child.pid === undefined || child.exitCode !== null || child.signalCode !== null) return;
  const force = setTimeout(() => child.kill('SIGKILL'), 5000);
  await new Promise((ok) => child.once('exit', ok));
  clearTimeout(force);
}

/** A browser: `page(url, { width, height })` opens a page, `close()` ends the browser. */
export async function chromium({ program = installed(), words = [] } = {}) {
  const home = fs.mkdtempSync(path.join(os.tmpdir(), 'chromium-'));
  const remove = () => fs.rmSync(home, { recursive: true, force: true, maxRetries: 5, retryDelay: 100 });
  process.once('exit', remove);
  const child = launch(program, home, words);
  const connection = connect(child, program);
  const close = async () => {
    await quit(child, connection.send);
    process.off('exit', remove);
    remove();
  };
  try {
    const { product } = await connection.send('Browser.getVersion');
    return { version: product, page: (url, size) => newPage(connection, url, size), close };
  } catch (e) {
    await close();
    throw e;
  }
}
