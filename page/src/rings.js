// Rings and groups of marks that are no network: by the core, but for the order of a ring's rows.
import { planEnd } from './plan.js';

/** @typedef {import('./plan.js').Plan} Plan */
/** The group of each junction (its smallest junction); the groups, and those beside the largest;
 * whether each row is marked and on a ring, these rows, and how many of them have to go before no
 * ring is left.
 * @typedef {{group: Uint8Array, groups: number[][], apart: number[][], on: Uint8Array,
 * ringed: number[], extra: number}} Rings */

/** @param {import('./core.js').Core} core
 * @param {Plan} p a plan whose ends are junctions @param {number} marks @returns {Rings} */
export function ringsOf(core, p, marks) {
  const told = core.groups(p);
  const group = Uint8Array.of(0, ...told.group);
  /** @type {Map<number, number[]>} */
  const of = new Map();
  for (let v = 1; v <= p.n; v++) {
    const own = of.get(group[v]);
    if (own) own.push(v);
    else of.set(group[v], [v]);
  }
  const groups = [...of.values()];
  const largest = groups.reduce((best, g) => (g.length > best.length ? g : best));
  const apart = groups.filter((g) => g !== largest);
  const on = told.rings;
  const ringed = [...on.keys()].filter((i) => on[i] === 1);
  return { group, groups, apart, on, ringed, extra: marks + told.groups - p.n };
}

/** The rows of a shortest ring through a row that is on one, in order, that row last.
 * @param {Plan} p @param {Rings} rings @param {number} i */
export function ringsThrough(p, rings, i) {
  const by = new Map([[p.left[i], -1]]);
  for (const v of by.keys()) {
    for (const r of rings.ringed) {
      if (r === i || (p.left[r] !== v && p.right[r] !== v)) continue;
      const w = planEnd(p, r, v);
      if (!by.has(w)) by.set(w, r);
    }
  }
  const rows = [];
  for (let v = p.right[i]; v !== p.left[i]; v = planEnd(p, rows[0], v)) {
    rows.unshift(/** @type {number} */ (by.get(v)));
  }
  return [...rows, i];
}
