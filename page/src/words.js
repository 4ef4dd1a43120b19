// Numbers and trenches in words. Rows are counted from 0 in the program and from 1 for planners.

/** @typedef {import('./plan.js').Plan} Plan */

const GROUPED = new Intl.NumberFormat('en');

/** An amount; figures in groups from 10,000 on.
 * @param {number} x */
export function money(x) {
  const size = Math.abs(x);
  return (x < 0 ? '\u2212' : '') + (size < 10000 ? String(size) : GROUPED.format(size));
}

/** @param {Plan} p @param {number} i */
export const trench = (p, i) => `trench ${i + 1} (${ends(p, i)}, ${money(p.price[i])})`;

/** A junction by its name, or by its number where it has none.
 * @param {Plan} p @param {number} v */
export const junction = (p, v) => p.names[v - 1] || String(v);

/** Junctions with dashes between.
 * @param {Plan} p @param {number[]} list */
function dashed(p, list) {
  return list.map((v) => junction(p, v)).join(p.names.length > 0 ? ' \u2013 ' : '\u2013');
}

/** @param {Plan} p @param {number} i */
export const ends = (p, i) => dashed(p, [p.left[i], p.right[i]]);

/** @param {number} k @param {string} one @param {string} more */
export const count = (k, one, more) => `${GROUPED.format(k)} ${k === 1 ? one : more}`;

/** The first few of a list.
 * @param {(number | string)[]} list @param {number} most */
export function some(list, most) {
  const first = list.slice(0, most).join(', ');
  return list.length <= most ? first : `${first} and ${list.length - most} more`;
}

/** Junctions in order; a run of four or more is told by its ends.
 * @param {number[]} list */
export function runs(list) {
  const words = [];
  for (let k = 0; k < list.length; k++) {
    let last = k;
    while (list[last + 1] === list[last] + 1) last++;
    if (last < k + 3) words.push(String(list[k]));
    else {
      words.push(`${list[k]} to ${list[last]}`);
      k = last;
    }
  }
  return words.join(', ');
}

/** Rows by the numbers that planners know.
 * @param {number[]} rows @param {number} most */
export const rowNumbers = (rows, most) => some(rows.map((r) => r + 1), most);

/** The junctions of a way.
 * @param {Plan} p @param {number[]} stops */
export function stops(p, stops) {
  const [dash, most] = ['\u2013', 14];
  if (stops.length <= most) return dashed(p, stops);
  const last = junction(p, stops[stops.length - 1]);
  return `${dashed(p, stops.slice(0, most - 3))}${dash}\u2026${dash}${last}`;
}

/** The junction that a word names: by its number, its name, or the beginning of its name; 0 for
 * none.
 * @param {Plan} p @param {string} word */
export function junctionOf(p, word) {
  const asked = word.trim().toLowerCase();
  if (/^[0-9]+$/.test(asked)) return Number(asked) <= p.n ? Number(asked) : 0;
  if (asked === '') return 0;
  const names = p.names.map((name) => name.toLowerCase());
  return (names.indexOf(asked) + 1) || names.findIndex((name) => name.startsWith(asked)) + 1;
}
