// Detours and cuts of a plan that is a network, by the path matrix that the core fills: the rows
// between two junctions are those on exactly one of their paths from junction 1.
import { planEnd, planHas, planLeaves } from './plan.js';

/** @typedef {import('./plan.js').Plan} Plan */
/** The rows of a way in order, the junctions on it, its dearest row (the uppermost of them) and
 * the sum of its prices.
 * @typedef {{rows: number[], stops: number[], dearest: number, sum: number}} Detour */

const WORDS = 32;

/** Whether a row is on the path from junction 1 to a junction.
 * @param {Uint32Array} matrix @param {number} v @param {number} i */
const detourOnPath = (matrix, v, i) => (matrix[WORDS * (v - 1) + (i >> 5)] >>> (i & 31)) & 1;

/** The rows between the ends of row i, in the table's order.
 * @param {Uint32Array} matrix @param {Plan} p @param {number} i */
export function detourRows(matrix, p, i) {
  const rows = [];
  const [a, b] = [WORDS * (p.left[i] - 1), WORDS * (p.right[i] - 1)];
  for (let w = 0; w < WORDS; w++) {
    for (let bits = matrix[a + w] ^ matrix[b + w]; bits !== 0; bits &= bits - 1) {
      rows.push(WORDS * w + 31 - Math.clz32(bits & -bits));
    }
  }
  return rows;
}

/** The detour of row i from its left end, whose dearest row the core has told.
 * @param {Uint32Array} matrix @param {Plan} p @param {number} i @param {number} dearest
 * @returns {Detour} */
export function detourOf(matrix, p, i, dearest) {
  const set = detourRows(matrix, p, i);
  const left = new Set(set);
  const rows = [];
  const stops = [p.left[i]];
  for (let at = p.left[i]; left.size > 0; ) {
    const next = [...left].find((r) => p.left[r] === at || p.right[r] === at);
    if (next === undefined) break;
    left.delete(next);
    at = planEnd(p, next, at);
    rows.push(next);
    stops.push(at);
  }
  const sum = set.reduce((all, r) => all + p.price[r], 0);
  return { rows, stops, dearest, sum };
}

/** What a row of the plan holds together: the junctions beyond it, and the rows left out that join
 * both sides again.
 * @param {Uint32Array} matrix @param {Plan} p @param {number} i */
export function detourCut(matrix, p, i) {
  /** @type {Set<number>} */
  const far = new Set();
  for (let v = 1; v <= p.n; v++) if (detourOnPath(matrix, v, i)) far.add(v);
  const across = [];
  for (let k = 0; k < p.m; k++) {
    if (planLeaves(p, k) && !planHas(p, k) && far.has(p.left[k]) !== far.has(p.right[k])) {
      across.push(k);
    }
  }
  return { far, across };
}
