// @ts-check
/** What both pages need of the browser: elements, files, the channel between them, and departures as rows of a table. */

/**
 * The element with an id.
 * @param {string} id
 * @returns {any}
 */
export const element = (id) => document.getElementById(id);

/**
 * A new element.
 * @param {string} name
 * @param {string} kind its class
 * @param {string} [text]
 */
export function make(name, kind, text = '') {
  const made = document.createElement(name);
  if (kind !== '') made.className = kind;
  if (text !== '') made.textContent = text;
  return made;
}

const FIGURES = new Intl.NumberFormat('en');

/** @param {number} number */
export const figure = (number) => FIGURES.format(number);

/**
 * A count in words.
 * @param {number} count
 * @param {string} one
 * @param {string} [more]
 */
export const many = (count, one, more = `${one}s`) => `${figure(count)} ${count === 1 ? one : more}`;

/**
 * The name of what there is one of for each draft; that of draft 02 is the plain one.
 * @param {string} name
 * @param {import('./btpu.mjs').Draft} draft
 */
export const nameIn = (name, draft) => (draft === '02' ? name : `${name}-${draft}`);

/**
 * The frames of the sample, as lines of hex.
 * @param {import('./btpu.mjs').Draft} draft
 */
export const sampleOf = async (draft) => new TextDecoder().decode(await fileBeside(`${nameIn('sample', draft)}.hex`));

/**
 * The octets of a file beside the page; a page that was packed into one file carries it.
 * @param {string} name
 * @returns {Promise<Uint8Array>}
 */
export async function fileBeside(name) {
  const carried = document.getElementById(`file:${name}`);
  if (carried !== null) return Uint8Array.from(atob((carried.textContent ?? '').trim()), (c) => c.charCodeAt(0));
  const answer = await fetch(name);
  if (!answer.ok) throw new Error(`${name}: ${answer.status} ${answer.statusText}`);
  return new Uint8Array(await answer.arrayBuffer());
}

/**
 * Departures as rows: time, line, where to, platform, remark.
 * @param {import('./timetable.mjs').Departure[]} departures
 */
export function departureRows(departures) {
  return departures.map(({ time, line, to, via, platform, remark }) => {
    const row = make('tr', /^cancel/i.test(remark) ? 'cancelled' : ''), where = make('th', 'to', to), sign = make('td', 'line');
    where.setAttribute('scope', 'row');
    if (via !== '') where.append(make('span', 'via', `via ${via.replace(/\s*\/\s*/g, ' · ')}`));
    if (line !== '') sign.append(make('span', 'badge', line));
    row.append(make('td', 'time', time), sign, where, make('td', 'platform', platform), make('td', 'remark', remark));
    return row;
  });
}
