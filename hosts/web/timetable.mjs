// @ts-check
/**
 * What the pages make of the octets of a bundle. The protocol says nothing of them, and neither does the library: this format is the
 * sample pages' own. Text in UTF-8:
 *
 *     Timetable: Mill Bridge          a timetable, and its station; a later one for the same station replaces it
 *     Edition: 7                      if given, one with a lower edition does not replace it
 *     07:12 Line R4 Platform 2 Upper Valley via Weir, +5 min
 *     08:12 Stop 4 Mill Bridge - Upper Valley, school days
 *
 * A line that begins with a time is a departure: perhaps a line, perhaps a platform or stop, where it goes, and after a comma a
 * remark. Other lines are notes. Text without a station and without departures is a notice. What is not text is passed over.
 */

/** @typedef {{ time: string, line: string, platform: string, to: string, via: string, remark: string }} Departure */
/** @typedef {{ kind: 'timetable', station: string, edition: number, departures: Departure[], notes: string[] }} Timetable */
/** @typedef {{ kind: 'notice', text: string }} Notice */
/**
 * What a board has to show; the last one received stands last.
 * @typedef {{ timetables: Timetable[], notices: string[] }} Shown
 */

const STATIONS = 100, NOTICES = 20;

/**
 * Octets as text, or null where they are none.
 * @param {Uint8Array} octets
 * @returns {string | null}
 */
export function textOf(octets) {
  try {
    const text = new TextDecoder('utf-8', { fatal: true }).decode(octets);
    return /[\u0000-\u0008\u000b\u000c\u000e-\u001f\u007f]/.test(text) ? null : text;
  } catch {
    return null;
  }
}

const DEPARTURE = /^([01]?\d|2[0-3]):([0-5]\d)\s+(?:Line\s+(\S+)\s+)?(?:(?:Stop|Platform|Track)\s+(\S+)\s+)?(.+)$/i;

/**
 * @param {string} text a line
 * @returns {Departure | null}
 */
function departure(text) {
  const match = DEPARTURE.exec(text);
  if (match === null) return null;
  const [, hour, minute, line = '', platform = '', rest] = match;
  const [, route, remark = ''] = /** @type {RegExpExecArray} */ (/^(.*?)(?:, (.*))?$/.exec(rest));
  const stations = route.split(/\s+[-–]\s+/), via = /^(.*?)\s+via\s+(.*)$/i.exec(route);
  return {
    time: `${hour.padStart(2, '0')}:${minute}`,
    line,
    platform,
    to: (via ? via[1] : stations[stations.length - 1]).trim(),
    via: via ? via[2].trim() : stations.slice(1, -1).join(', '),
    remark: remark.trim(),
  };
}

/**
 * @param {Uint8Array} octets of a bundle
 * @returns {Timetable | Notice | null}
 */
export function contentOf(octets) {
  const text = textOf(octets);
  if (text === null || text.trim() === '') return null;
  /** @type {Timetable} */
  const table = { kind: 'timetable', station: '', edition: 0, departures: [], notes: [] };
  for (const line of text.split(/\r?\n/).map((raw) => raw.trim()).filter(Boolean)) {
    const head = /^(timetable|edition):\s*(.*)$/i.exec(line), found = departure(line);
    if (found) table.departures.push(found);
    else if (head?.[1].toLowerCase() === 'timetable') table.station = head[2];
    else if (head) table.edition = Number.parseInt(head[2], 10) || 0;
    else table.notes.push(line);
  }
  if (table.departures.length === 0 && table.station === '') return { kind: 'notice', text: text.trim() };
  table.departures.sort((a, b) => (a.time < b.time ? -1 : a.time > b.time ? 1 : 0));
  return table;
}

/**
 * A board that has received nothing.
 * @type {Readonly<Shown>}
 */
export const NOTHING = Object.freeze({ timetables: [], notices: [] });

/**
 * What is shown when a bundle was handed out; what was shown before stays as it was.
 * @param {Shown} shown
 * @param {Uint8Array} octets
 * @returns {Shown}
 */
export function showing(shown, octets) {
  const content = contentOf(octets);
  if (content === null) return shown;
  if (content.kind === 'notice') {
    return { ...shown, notices: [...shown.notices.filter((text) => text !== content.text), content.text].slice(-NOTICES) };
  }
  const before = shown.timetables.find((table) => table.station === content.station);
  if (before !== undefined && before.edition > content.edition) return shown;
  return { ...shown, timetables: [...shown.timetables.filter((table) => table !== before), content].slice(-STATIONS) };
}

/**
 * The timetable of a station, or the last one received where none is named.
 * @param {Shown} shown
 * @param {string} station
 * @returns {Timetable | undefined}
 */
export function tableOf(shown, station) {
  return station === '' ? shown.timetables.at(-1) : shown.timetables.find((table) => table.station === station);
}

/**
 * The departures of a timetable from a time on, HH:MM.
 * @param {Timetable | undefined} table
 * @param {string} time
 */
export const departuresFrom = (table, time) => (table?.departures ?? []).filter((departure) => departure.time >= time);
