// Rows as other programs have them, with junctions of any name, made into a table: as
// python/star/rows.py does, whose words these are.
import { MAX_PRICE, MIN_PRICE } from './core.js';
import { FileFault } from './file.js';

/** A name, or the place of a junction that has none.
 * @typedef {string | number | boolean | number[]} Name */
/** A row: its junctions, its price as it is written, and whether it is marked.
 * @typedef {{left: Name, right: Name, price: unknown, mark: unknown}} Given */
/** @typedef {{n: number, names: Name[], rows: number[][]}} Numbered */

const MOST_LETTERS = 100;
const QUOTED_LETTERS = 60;
const MARKS = [0, 1, false, true, undefined, null];

/** @param {number} place the row, counted from 1, or 0 @param {string} words @returns {never} */
export function rowsFault(place, words) {
  throw new FileFault(place > 0 ? ` row ${place}: ${words}` : ` ${words}`);
}

/** @param {unknown} value */
export function rowsQuote(value) {
  const json = JSON.stringify(value);
  const words = typeof value === 'string' ? `'${json.slice(1, -1).replace(/\\"/g, '"')}'` : json;
  return words.slice(0, QUOTED_LETTERS);
}

/** @param {Name} name */
const rowsName = (name) => (Array.isArray(name) ? `(${name.join(', ')})` : rowsQuote(name));

/** The price that is written, which has to be whole: 7, 7.00 and 0.7e1 are the same.
 * @param {number} place @param {unknown} given */
function rowsPrice(place, given) {
  const text = typeof given === 'object' ? '' : String(given).trim();
  const parts = /^([-+]?)(?=\d|\.\d)(\d*)(?:\.(\d*))?(?:e([-+]?\d+))?$/i.exec(text);
  if (!parts || text.length > MOST_LETTERS || Math.abs(Number(parts[4] || 0)) > 999) {
    return rowsFault(place, `${rowsQuote(given)} is not a price`);
  }
  const [, sign, whole, decimals = '', power = '0'] = parts;
  const digits = whole + decimals;
  const point = whole.length + Number(power);
  if (/[1-9]/.test(digits.slice(Math.max(0, point)))) {
    rowsFault(place, `the price ${text} is not a whole number`);
  }
  const price = Number(sign + (digits.slice(0, Math.max(0, point)).padEnd(point, '0') || '0')) + 0;
  if (price < MIN_PRICE || price > MAX_PRICE) {
    rowsFault(place, `the price ${text} is more than 32 bits hold`);
  }
  return price;
}

/** Numbers the junctions as they come, after those that are known before.
 * @param {Given[]} given @param {Name[]} known @returns {Numbered} */
export function rowsNumbered(given, known) {
  /** @type {Map<string, number>} */
  const numbers = new Map();
  /** @type {Name[]} */
  const names = [];
  /** @param {Name} name */
  const number = (name) => {
    const key = JSON.stringify(name);
    if (!numbers.has(key)) numbers.set(key, names.push(name));
    return numbers.get(key) || 0;
  };
  known.forEach(number);
  /** @type {Map<string, number>} */
  const seen = new Map();
  const rows = given.map((row, k) => {
    const place = k + 1;
    if (!(/** @type {unknown[]} */ (MARKS)).includes(row.mark)) {
      rowsFault(place, `its mark is ${rowsQuote(row.mark)}`);
    }
    const ends = [number(row.left), number(row.right)];
    if (ends[0] === ends[1]) {
      rowsFault(place, `it joins ${rowsName(row.left)} to itself`);
    }
    const price = rowsPrice(place, row.price);
    const pair = [...ends].sort().join();
    if (seen.has(pair)) rowsFault(place, `row ${seen.get(pair)} joins the same junctions`);
    seen.set(pair, place);
    return [...ends, price, Number(row.mark || 0)];
  });
  return { n: names.length, names, rows };
}

/** Names as they are shown, nothing for a junction that has none.
 * @param {Name[]} names */
export function rowsNames(names) {
  return names.map((name) => {
    return Array.isArray(name) ? '' : String(name).replace(/[^ -\uffff]+/g, ' ');
  });
}
