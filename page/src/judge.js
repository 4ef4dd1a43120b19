// All that is asked about a plan after each change.
import { LIGHTER, MARK_COUNT, NOT_JOINED, PASSED, REFUSED } from './core.js';
import { planRows } from './plan.js';
import { ringsOf } from './rings.js';

/** @typedef {import('./core.js').Core} Core */
/** @typedef {import('./core.js').Answer} Answer */
/** @typedef {import('./plan.js').Plan} Plan */
/** `network`: the marks are one. `drawn`: the table is sound, so that it can be drawn. `total` is
 * the core's, 0 where the table is refused; `least` that of a cheapest network, or why there is
 * none. `exchange` is the one of two rows that saves most, by the core. `beside` has what the core
 * says of detours, `breakings` the breaking prices that were asked for.
 * @typedef {{verdict: Answer, network: boolean, drawn: boolean, marks: number, total: number,
 * least: {kind: number, number: number, amount: number} | null, other: Answer | null,
 * matrix: Uint32Array | null, beside: Int32Array | null,
 * exchange: {out: number, in: number, saves: number} | null, breakings: Map<number, Answer>,
 * rings: import('./rings.js').Rings | null}} Judgement */

/** The plan's marks with one row out and another one in.
 * @param {Plan} p @param {number} out @param {number} into */
export function judgeExchanged(p, out, into) {
  const mark = p.mark.slice();
  mark[out] = 0;
  mark[into] = 1;
  return mark;
}

/** Detours and the exchange that saves most, for a plan that is a network; another network of the
 * same total where it is a cheapest one and not the only one.
 * @param {Core} core @param {Plan} p @param {Answer} verdict */
function judgeNetwork(core, p, verdict) {
  const told = core.detours(p);
  const best = verdict.kind === LIGHTER ? core.best(p) : null;
  return {
    matrix: core.paths(p),
    beside: told && told.beside,
    exchange: best && { out: best.out - 1, in: best.in - 1, saves: best.amount },
    total: told ? told.total : 0,
    least: { kind: PASSED, number: 0, amount: best ? best.least : verdict.amount },
    other: verdict.kind === PASSED && !verdict.only ? verdict : null,
    rings: null,
  };
}

/** What is asked about marks that are no network.
 * @param {Core} core @param {Plan} p @param {boolean} drawn @param {number} marks */
function judgeOthers(core, p, drawn, marks) {
  return {
    matrix: null,
    beside: null,
    exchange: null,
    total: core.total(p, p.mark).amount,
    least: drawn ? core.mst1(p) : null,
    other: null,
    rings: drawn ? ringsOf(core, p, marks) : null,
  };
}

/** @param {Core} core @param {Plan} p @returns {Judgement} */
export function judge(core, p) {
  const verdict = core.other(p);
  const network = verdict.kind !== REFUSED;
  const drawn = network || verdict.number === MARK_COUNT || verdict.number === NOT_JOINED;
  const marks = planRows(p).length;
  const found = network ? judgeNetwork(core, p, verdict) : judgeOthers(core, p, drawn, marks);
  return { verdict, network, drawn, marks, breakings: new Map(), ...found };
}
