// A plan: the columns of a table of trenches. Rows are counted from 0 here and from 1 for planners.

/** A struck row keeps its mark, which does not count while it is struck. `names` are those of the
 * junctions, junction v at index v - 1; none where they have numbers.
 * @typedef {{n: number, m: number, left: Uint8Array, right: Uint8Array, price: Int32Array,
 * mark: Uint8Array, struck: Uint8Array, names: string[]}} Plan */

/** @param {number} n @param {number} m @returns {Plan} */
export function planOf(n, m) {
  return {
    n,
    m,
    left: new Uint8Array(m),
    right: new Uint8Array(m),
    price: new Int32Array(m),
    mark: new Uint8Array(m),
    struck: new Uint8Array(m),
    names: [],
  };
}

/** A plan of rows: two junctions, a price and a mark each.
 * @param {number} n @param {number[][]} rows @param {string[]} names @returns {Plan} */
export function planOfRows(n, rows, names) {
  const [left, right, mark] = [0, 1, 3].map((k) => Uint8Array.from(rows, (row) => row[k]));
  const price = Int32Array.from(rows, (row) => row[2]);
  const struck = new Uint8Array(rows.length);
  return { n, m: rows.length, left, right, price, mark, struck, names };
}

/** A plan that can be changed while the other stays.
 * @param {Plan} p @returns {Plan} */
export function planCopy(p) {
  return { ...p, price: p.price.slice(), mark: p.mark.slice(), struck: p.struck.slice() };
}

/** @param {Plan} p @param {number} i */
export const planHas = (p, i) => p.mark[i] === 1 && p.struck[i] === 0;

/** Whether a row is in use and not marked.
 * @param {Plan} p @param {number} i */
export const planLeaves = (p, i) => p.mark[i] !== 1 && p.struck[i] === 0;

/** The marked rows.
 * @param {Plan} p */
export function planRows(p) {
  const rows = [];
  for (let i = 0; i < p.m; i++) if (planHas(p, i)) rows.push(i);
  return rows;
}

/** What the marked rows cost, network or none.
 * @param {Plan} p */
export const planSum = (p) => planRows(p).reduce((sum, i) => sum + p.price[i], 0);

/** The other end of a row.
 * @param {Plan} p @param {number} i @param {number} v */
export const planEnd = (p, i, v) => (p.left[i] === v ? p.right[i] : p.left[i]);
