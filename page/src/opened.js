// What a file holds, by its name and content: GeoJSON, an STP text, or a table file, which CSV is.
import { MAX_JUNCTIONS, MAX_ROWS, MAX_TEXT, PASSED, TOO_MANY_ROWS } from './core.js';
import { FileFault, fileBody, fileIsStp, fileOfPlan, fileRead, fileText } from './file.js';
import { geojsonRead } from './geojson.js';
import { layoutCoordinates } from './layout.js';
import { planOfRows } from './plan.js';
import { rowsFault, rowsNames } from './rows.js';

/** @typedef {import('./core.js').Core} Core */
/** @typedef {import('./plan.js').Plan} Plan */
/** `coordinates` are those of the junctions, where the file has them.
 * @typedef {{file: import('./file.js').File, plan: Plan,
 * coordinates: number[][] | null}} Opened */

/** @param {Uint8Array} bytes */
function openedUtf8(bytes) {
  try {
    return new TextDecoder('utf-8', { fatal: true }).decode(bytes);
  } catch (fault) {
    return rowsFault(0, 'it is no text in UTF-8');
  }
}

/** A plan as a table file with the names of its junctions, which have their numbers in the order in
 * which its lines meet them then; without them where the core does not write them so that each is
 * read back: then they are shown alone.
 * @param {Core} core @param {Plan} plan @param {number[][]} coordinates @returns {Opened} */
function openedNamed(core, plan, coordinates) {
  const utf8 = new TextEncoder();
  const names = plan.names.map((name) => fileText(utf8.encode(name)));
  const text = fileOfPlan(core, plan, names);
  const read = text === '' ? null : fileRead(core, text);
  if (!read || read.plan.names.length !== plan.n) {
    const { file } = fileRead(core, fileOfPlan(core, plan, []));
    return { file, plan, coordinates };
  }
  const at = read.plan.names.map((name) => coordinates[plan.names.indexOf(name)]);
  return { ...read, coordinates: at };
}

/** @param {Core} core @param {Uint8Array} bytes @returns {Opened} */
function openedMap(core, bytes) {
  const { n, rows, names, coordinates } = geojsonRead(openedUtf8(bytes));
  if (n > MAX_JUNCTIONS) throw new FileFault(` ${core.refused(1, 0)}`);
  if (rows.length > MAX_ROWS) throw new FileFault(` ${core.refused(TOO_MANY_ROWS, 0)}`);
  const plan = planOfRows(n, rows, rowsNames(names));
  return openedNamed(core, plan, coordinates);
}

/** @param {Core} core @param {string} body @returns {Opened} */
function openedStp(core, body) {
  const length = core.putText(body, MAX_TEXT);
  const { kind, number, amount, plan } = core.stp(length);
  if (kind !== PASSED || !plan) throw new FileFault(` ${core.refused(number, amount)}`);
  const coordinates = layoutCoordinates(core, length, plan.n);
  return { ...fileRead(core, fileOfPlan(core, plan, [])), coordinates };
}

/** @param {Core} core @param {Uint8Array} bytes @param {string} name @returns {Opened} */
export function openedFile(core, bytes, name) {
  if (/\.(geo)?json$/i.test(name)) return openedMap(core, bytes);
  const text = fileText(bytes);
  if (fileIsStp(text)) return openedStp(core, fileBody(text));
  return { ...fileRead(core, text), coordinates: null };
}
