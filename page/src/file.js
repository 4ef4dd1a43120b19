// Table files: read by the core, in whose words lines that cannot stand are told, and written as
// the console does (console/edit.c): a line that says the same stays byte for byte. A text here has
// a character for each byte of the file.
import { BAD_TEXT, MAX_FILE, MAX_WRITTEN, PASSED, TOO_MANY_NAMES } from './core.js';
import { TOO_MANY_ROWS } from './core.js';
import { fieldsChanged, fieldsOf, fieldsPart, fieldsWord } from './fields.js';

/** @typedef {import('./core.js').Core} Core */
/** @typedef {import('./plan.js').Plan} Plan */
/** Lines with their ends, and that of each row; the names of junctions; the plan as it was read;
 * whether a line 'junctions N' is there, and the word that gives the number of junctions.
 * @typedef {{mark: string, lines: string[], rowLine: number[], names: string[], filed: Plan,
 * told: boolean, count: string}} File */

const TOLD = 20; // the most lines that are told
const QUOTED = 40;
const [LINE_FEED, RETURN, BLANK, SEMICOLON] = [10, 13, 32, 59];
const ORDER_MARK = '\xef\xbb\xbf';

/** What is wrong with a file, a sentence a line that cannot stand. */
export class FileFault extends Error {}

/** A character for each byte.
 * @param {Uint8Array} bytes */
export function fileText(bytes) {
  let text = '';
  for (let k = 0; k < bytes.length; k += 8192) {
    text += String.fromCharCode(...bytes.subarray(k, k + 8192));
  }
  return text;
}

/** @param {string} text */
export const fileBytes = (text) => Uint8Array.from(text, (c) => c.charCodeAt(0));

/** What the bytes of a text say in UTF-8.
 * @param {string} text */
export const fileShown = (text) => new TextDecoder().decode(fileBytes(text));

/** A text without its byte order mark.
 * @param {string} text */
export const fileBody = (text) => (text.startsWith(ORDER_MARK) ? text.slice(3) : text);

/** Whether a text is an STP text.
 * @param {string} text */
export const fileIsStp = (text) => /^[ \t\r\n]*33d32945(?=[ \t\r\n]|$)/i.test(fileBody(text));

/** Reads a table file.
 * @param {Core} core @param {string} text @returns {{file: File, plan: Plan}} */
export function fileRead(core, text) {
  if (/^(\xff\xfe|\xfe\xff)/.test(text)) {
    throw new FileFault(' it is UTF-16 text; save it as UTF-8 or ASCII');
  }
  const length = core.putText(text, MAX_FILE);
  const { kind, out: names, in: m, amount: n } = core.readTable(length);
  if (kind !== PASSED) throw new FileFault(fileFaults(core, length));
  const [from, to] = [core.nameFrom, core.nameTo].map((at) => core.numbersAt(at, names));
  const own = Array.from(from, (at, k) => text.slice(at, to[k]));
  const places = core.numbersAt(core.numbers, m);
  const plan = core.plan(n, m, own.map(fileShown));
  const file = fileLines(text, places, own, plan);
  fileHidden(core, file, plan);
  return { file, plan };
}

/** The lines of a text, those of its rows, and how many junctions it tells.
 * @param {string} text @param {Uint32Array} places @param {string[]} names @param {Plan} filed
 * @returns {File} */
function fileLines(text, places, names, filed) {
  const mark = text.slice(0, text.length - fileBody(text).length);
  const lines = fileBody(text).match(/[^\r\n]*(\r\n|\r|\n)|[^\r\n]+$/g) || [];
  /** @type {File} */
  const file = { mark, lines, rowLine: [], names, filed, told: false, count: '' };
  let at = mark.length;
  lines.forEach((line, k) => {
    at += line.length;
    if (file.rowLine.length < places.length && places[file.rowLine.length] < at) {
      file.rowLine.push(k);
      return;
    }
    const fields = fieldsOf(line);
    if (fieldsWord(line, fields, 0) !== 'junctions') return;
    file.told = true;
    file.count = fieldsWord(line, fields, 1);
  });
  if (!file.told && names.length === 0) file.count = fileLargest(file, filed);
  return file;
}

/** The word that names the largest junction first.
 * @param {File} file @param {Plan} p */
function fileLargest(file, p) {
  const row = p.left.findIndex((a, i) => a === p.n || p.right[i] === p.n);
  if (row < 0) return '';
  const line = file.lines[file.rowLine[row]];
  return fieldsWord(line, fieldsOf(line), p.struck[row] + Number(p.left[row] !== p.n));
}

/** A struck trench is read as unmarked; the mark that its line has counts again when it comes back.
 * It is what is read where the word 'struck' is blanked.
 * @param {Core} core @param {File} file @param {Plan} p */
function fileHidden(core, file, p) {
  if (!p.struck.includes(1)) return;
  const lines = file.lines.slice();
  p.struck.forEach((struck, i) => {
    const line = lines[file.rowLine[i]];
    const [, [own]] = fieldsOf(line).whole;
    if (struck) lines[file.rowLine[i]] = ' '.repeat(own) + line.slice(own);
  });
  core.readTable(core.putText(file.mark + lines.join(''), MAX_FILE));
  p.mark = core.plan(p.n, p.m, []).mark;
}

/** The lines that cannot stand, a sentence each: each is blanked, and the text is read again.
 * @param {Core} core @param {number} length */
function fileFaults(core, length) {
  const faults = [];
  for (;;) {
    const { kind, number, amount: place } = core.readTable(length);
    if (kind === PASSED) break;
    if (faults.length === TOLD) {
      faults.push(' more lines cannot stand');
      break;
    }
    const words = core.refusal(number);
    if (number === BAD_TEXT) return ` ${words}`;
    const { start, end } = fileLineAround(core, length, place);
    const piece = core.memory.subarray(core.text + place, core.text + end);
    faults.push(`${core.lineOf(length, place)}: ${words}: ${fileQuote(piece)}`);
    if (number === TOO_MANY_ROWS || number === TOO_MANY_NAMES) break;
    core.memory.fill(BLANK, core.text + start, core.text + end);
  }
  return faults.join('\n');
}

/** Where the line of a place begins and ends.
 * @param {Core} core @param {number} length @param {number} place */
function fileLineAround(core, length, place) {
  /** @param {number} k */
  const within = (k) => {
    const byte = core.memory[core.text + k];
    return k >= 0 && k < length && byte !== LINE_FEED && byte !== RETURN;
  };
  let [start, end] = [place, place];
  while (within(start - 1)) start--;
  while (within(end)) end++;
  return { start, end };
}

/** A piece of the file in quotes, as the console shows it.
 * @param {Uint8Array} piece */
function fileQuote(piece) {
  /** @param {string} c */
  const shown = (c) => `\\x${c.charCodeAt(0).toString(16).padStart(2, '0')}`;
  const start = fileText(piece.subarray(0, QUOTED)).replace(/\t/g, ' ').replace(/[^ -~]/g, shown);
  return `'${start}${piece.length > QUOTED ? '..' : ''}'`;
}

/** What a row of a plan says.
 * @param {Plan} p @param {number} i */
const fileRow = (p, i) => ({ mark: p.mark[i], price: p.price[i], struck: p.struck[i] });

/** The file with the plan's marks, prices and strikes.
 * @param {File} file @param {Plan} p */
export function fileWrite(file, p) {
  const lines = file.lines.slice();
  file.rowLine.forEach((k, i) => {
    lines[k] = fieldsChanged(lines[k], fileRow(file.filed, i), fileRow(p, i));
  });
  return file.mark + lines.join('');
}

/** What parts the fields of the last trench.
 * @param {File} file */
function filePart({ lines, rowLine }) {
  return rowLine.length > 0 ? fieldsOf(lines[rowLine[rowLine.length - 1]]).by : ' ';
}

/** Whether a line 'junctions N' is to be written: lines of trenches go, none says it yet, and of a
 * file with names one goes with them.
 * @param {File} file @param {Plan} p
 * @param {(i: number) => boolean} stays @param {string[]} ends */
function fileCounts(file, p, stays, ends) {
  if (p.left.every((_, i) => stays(i)) || file.told) return false;
  if (file.names.length === 0) return p.n > 0;
  const left = new Set(ends.map((word) => file.names.indexOf(word) + 1));
  p.left.forEach((a, i) => {
    if (stays(i)) left.add(a).add(p.right[i]);
  });
  return file.names.some((_, k) => !left.has(k + 1));
}

/** The text with one more trench, at the row that star_add gave, counted from 1: at the file's end;
 * in place of a struck one; or, where all rows were in use or struck, after the struck ones are
 * gone.
 * @param {File} file the lines as the plan has them @param {Plan} p @param {number} at
 * @param {string[]} ends words for its junctions @param {number} price @param {number} n */
export function fileAdd(file, p, at, ends, price, n) {
  const [end] = (file.lines[0] || '').match(/\r\n|\r|\n/) || ['\n'];
  const part = fieldsPart(ends, filePart(file)) || ';';
  const added = [...ends, price, 0].join(part) + end;
  const merged = at <= p.struck.lastIndexOf(0) + 1;
  const instead = !merged && at <= p.m ? at - 1 : -1;
  /** @param {number} i */
  const stays = (i) => i !== instead && !(merged && p.struck[i]);
  const rows = new Map(file.rowLine.map((k, i) => [k, i]));
  const lines = file.lines.map((own, k) => {
    const row = rows.get(k);
    if (row === undefined || stays(row)) return own;
    return row === instead ? added : '';
  });
  const word = n > p.n || file.names.length > 0 ? n : file.count;
  const count = `junctions${filePart(file)}${word}${end}`;
  const first = fileCounts(file, p, stays, ends) ? [count] : [];
  const open = !/[\r\n]$/.test(file.lines[file.lines.length - 1] || '\n');
  const last = open ? [end, added] : [added];
  return file.mark + [...first, ...lines, ...(instead < 0 ? last : [])].join('');
}

/** A plan as a table file, which the core writes: fields are parted by blanks, and where there are
 * names, by semicolons below a header. Nothing where the core refuses to.
 * @param {Core} core @param {Plan} p @param {string[]} names */
export function fileOfPlan(core, p, names) {
  const length = core.putText(names.join(''), MAX_FILE);
  names.reduce((at, name, k) => {
    core.view.setUint32(core.nameFrom + 4 * k, at, true);
    core.view.setUint32(core.nameTo + 4 * k, at + name.length, true);
    return at + name.length;
  }, 0);
  core.put(p);
  const { use, left, right, weight, mark, written } = core;
  const [m, count] = [p.m, names.length].map(BigInt);
  const table = [use, 16n, left, m, right, m, weight, 4n * m, mark, m];
  const places = [core.text, BigInt(length), core.nameFrom, count, core.nameTo, count];
  const out = [names.length > 0 ? SEMICOLON : BLANK, written, BigInt(MAX_WRITTEN)];
  const { kind, amount } = core.ask('star_write_table', p.n, ...table, ...places, ...out);
  return kind === PASSED ? fileText(core.memory.subarray(written, written + amount)) : '';
}
