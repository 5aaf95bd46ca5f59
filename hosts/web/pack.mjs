// @ts-check
/**
 * Writes each page as one file that opens from a file: address, with no server.
 *
 *     node hosts/web/pack.mjs [OUT]       OUT/board.html and OUT/desk.html; OUT is target/web if not given
 *
 * Browsers load neither module scripts nor a wasm file from there, so the page carries all: one inline script, one style and the files
 * that it reads. A module becomes a function that answers what the module exports; the page's own script stands last.
 */
import { spawnSync } from 'node:child_process';
import { createHash } from 'node:crypto';
import fs from 'node:fs';
import path from 'node:path';
import { fileURLToPath } from 'node:url';

const PAGES = ['board', 'desk'];
const FILES = ['btpu.wasm', 'sample.hex', 'sample-00.hex'];
const IMPORT = /^import \{([\w\s,$]*)\} from '\.\/([\w-]+\.mjs)';$/gm;
const EXPORT = /^export (?:async function\*?|function\*?|class|const|let) ([\w$]+)/gm;
const POLICY = "script-src 'self' 'wasm-unsafe-eval'; style-src 'self'; connect-src 'self'";

const here = path.dirname(fileURLToPath(import.meta.url));

/** What can't be packed, in words. */
class Refused extends Error {}

/** @param {string} name of a file beside this one */
function read(name) {
  try {
    return fs.readFileSync(path.join(here, name));
  } catch (e) {
    if (/** @type {NodeJS.ErrnoException} */ (e).code !== 'ENOENT') throw e;
    throw new Refused(name === 'btpu.wasm' ? 'btpu.wasm is not there: run hosts/web/build first' : `${name} is not there`);
  }
}

/**
 * The name that stands for a module in the packed script.
 * @param {string} file
 */
const handle = (file) => `module_${file.slice(0, -'.mjs'.length).replaceAll('-', '_')}`;

/**
 * A module's text with its imports taken from what stands before it.
 * @param {string} file
 * @param {(file: string) => string[]} take answers what another file exports
 */
function linked(file, take) {
  const text = read(file).toString().replace(IMPORT, (_, list, from) => {
    const exported = take(from);
    /** @type {string[]} */ const names = list.split(',').map((/** @type {string} */ name) => name.trim());
    const missing = names.filter((name) => name !== '' && !exported.includes(name));
    if (missing.length > 0) throw new Refused(`${file} imports ${missing.join(', ')} from ${from}, where no export of it can be packed`);
    return `const {${list}} = ${handle(from)};`;
  });
  const left = /^import\b(?!\s*[.(]).*/m.exec(text);
  if (left !== null) throw new Refused(`${file} has an import that can't be packed: ${left[0]}`);
  if (/<\/script|<!--/i.test(text)) throw new Refused(`${file} has the text of a tag that ends or hides a script`);
  return text;
}

/**
 * A module as a function that is called once.
 * @param {string} file
 * @param {string} text
 * @param {string[]} names what it exports
 */
function wrapped(file, text, names) {
  const body = text.replace(EXPORT, (whole) => whole.slice('export '.length));
  const left = /^export\b.*/m.exec(body);
  if (left !== null) throw new Refused(`${file} has an export that can't be packed: ${left[0]}`);
  return `const ${handle(file)} = (() => {\n${body}\nreturn { ${names.join(', ')} };\n})();\n`;
}

/**
 * The script of a page and of all modules that it imports, each once, behind those that it imports itself.
 * @param {string} page
 */
function script(page) {
  /** @type {Map<string, string[] | null>} */ const exported = new Map();
  /** @type {string[]} */ const parts = [];
  /**
   * @param {string} file
   * @returns {string[]}
   */
  const take = (file) => {
    const before = exported.get(file);
    if (before === null) throw new Refused(`${file} imports itself by way of others, which can't be packed`);
    if (before !== undefined) return before;
    exported.set(file, null);
    const text = linked(file, take);
    const names = [...text.matchAll(EXPORT)].map((match) => match[1]);
    parts.push(wrapped(file, text, names));
    exported.set(file, names);
    return names;
  };
  const own = linked(`${page}.mjs`, take);
  const code = [...parts, own].join('');
  const { status, stderr } = spawnSync(process.execPath, ['--check', '--input-type=module', '-'], { input: code });
  if (status !== 0) throw new Refused(`${page}.mjs with what it imports is no script when packed:\n${stderr}`);
  return code;
}

/** @param {string} text */
const allowed = (text) => `'sha256-${createHash('sha256').update(text).digest('base64')}'`;

/**
 * A page as one file.
 * @param {string} name
 * @returns {string}
 */
function pack(name) {
  const code = script(name);
  const style = read(`${name}.css`).toString();
  if (/<\/style|@import|url\(/i.test(style)) throw new Refused(`${name}.css ends its own tag, or needs other files`);
  const files = FILES.map((file) => `<script type="text/plain" id="file:${file}">${read(file).toString('base64')}</script>\n`);
  const places = {
    [`<link rel="stylesheet" href="${name}.css">`]: `<style>${style}</style>`,
    [`<script type="module" src="${name}.mjs"></script>`]: `${files.join('')}<script type="module">${code}</script>`,
    [POLICY]: `script-src ${allowed(code)} 'wasm-unsafe-eval'; style-src ${allowed(style)}`,
  };
  let page = read(`${name}.html`).toString();
  for (const [what, by] of Object.entries(places)) {
    if (page.split(what).length !== 2) throw new Refused(`${name}.html has not exactly one ${what}`);
    page = page.replace(what, () => by);
  }
  return page;
}

/**
 * Writes a file whole or not at all.
 * @param {string} file
 * @param {string} text
 */
function write(file, text) {
  const temporary = `${file}.${process.pid}.tmp`;
  try {
    fs.writeFileSync(temporary, text);
    fs.renameSync(temporary, file);
  } finally {
    fs.rmSync(temporary, { force: true });
  }
  console.log(`${file}: ${Buffer.byteLength(text).toLocaleString('en')} octets`);
}

try {
  if (process.argv.length > 3 || process.argv[2]?.startsWith('-')) throw new Refused('usage: node hosts/web/pack.mjs [OUT]');
  const out = process.argv[2] ?? path.join(here, '../../target/web');
  const pages = PAGES.map((name) => ({ name, text: pack(name) }));
  fs.mkdirSync(out, { recursive: true });
  for (const { name, text } of pages) write(path.join(out, `${name}.html`), text);
} catch (e) {
  const system = e instanceof Error && 'syscall' in e;
  if (!(e instanceof Refused) && !system) throw e;
  console.error(`pack: ${/** @type {Error} */ (e).message}`);
  process.exitCode = 1;
}
