// Exercises on the four errors: the count, the detour's sum, two networks of one price, 256. Tables
// come from a seed; which answer is right is asked of the core.
import { LIGHTER, MAX_JUNCTIONS, PASSED, REFUSED } from './core.js';
import { detourRows } from './detour.js';
import { judgeExchanged } from './judge.js';
import { planCopy, planOf } from './plan.js';
import { randomFrom } from './random.js';
import { ends, money, trench } from './words.js';

/** @typedef {import('./core.js').Core} Core */
/** @typedef {import('./plan.js').Plan} Plan */
/** @typedef {(below: number) => number} Random */
/** Gives the table of an exercise: of so many junctions, so many trenches more than a ring of them
 * has, and prices up to one; or the class's own.
 * @typedef {(n: number, more: number, dearest: number) => Plan} Tables */
/** A question about a plan. `row` is the trench that it asks about, -1 for none; `second` has the
 * marks of another plan, where there is one.
 * @typedef {{kind: number, plan: Plan, row: number, second: Uint8Array | null, ask: string,
 * choices: {key: string, words: string}[]}} Exercise */
/** @typedef {{right: string, core: string, page: string}} Answered */

const TRIES = 500;
const OWN_TRIES = 60;
export const KINDS = ['Count', 'Detour', 'Equal', 'Limit'];

/** Junctions on a ring, and some more trenches, in any order.
 * @param {Random} rnd @param {number} n @param {number} more @param {number} dearest */
function exerciseTown(rnd, n, more, dearest) {
  /** @type {number[][]} */
  const rows = [];
  const seen = new Set();
  /** @param {number} a @param {number} b */
  const add = (a, b) => {
    const key = Math.min(a, b) * 256 + Math.max(a, b);
    if (!seen.has(key)) rows.push([a, b]);
    seen.add(key);
  };
  for (let v = 1; v <= n; v++) add(v, (v % n) + 1);
  while (rows.length < n + more) {
    const a = 1 + rnd(n);
    add(a, ((a + 1 + rnd(n - 3)) % n) + 1);
  }
  const plan = planOf(n, rows.length);
  for (let i = 0; i < plan.m; i++) {
    const [[a, b]] = rows.splice(rnd(rows.length), 1);
    plan.left[i] = a;
    plan.right[i] = b;
    plan.price[i] = 2 + rnd(dearest);
  }
  return plan;
}

/** The rows with a mark, or without.
 * @param {Plan} p @param {number} mark */
const exerciseRows = (p, mark) => [...p.mark.keys()].filter((i) => p.mark[i] === mark);

/** A least network with one mark moved, so that it is none; or as it is.
 * @param {Core} core @param {Tables} tables @param {Random} rnd @param {boolean} network
 * @returns {Exercise | null} */
function exerciseCount(core, tables, rnd, network) {
  const plan = tables(6 + rnd(4), 2, 9);
  plan.mark = core.mst1(plan).mark;
  if (!network) {
    const [marked, left] = [exerciseRows(plan, 1), exerciseRows(plan, 0)];
    plan.mark = judgeExchanged(plan, marked[rnd(marked.length)], left[rnd(left.length)]);
  }
  if ((core.cst(plan).kind !== REFUSED) !== network) return null;
  return {
    kind: 0,
    plan,
    row: -1,
    second: null,
    ask: `${plan.n} junctions, and ${plan.n - 1} trenches are marked. Look at the list alone: do ` +
      'the marked trenches reach every junction?',
    choices: [
      { key: 'yes', words: 'They do' },
      { key: 'no', words: 'They do not' },
    ],
  };
}

/** A trench that costs less than its detour in all, and more or less than its dearest.
 * @param {Core} core @param {Tables} tables @param {Random} rnd @param {boolean} saves
 * @returns {Exercise | null} */
function exerciseDetour(core, tables, rnd, saves) {
  const plan = tables(6 + rnd(3), 3, 14);
  plan.mark = core.mst1(plan).mark;
  if (saves) {
    const [marked, left] = [exerciseRows(plan, 1), exerciseRows(plan, 0)];
    plan.mark = judgeExchanged(plan, marked[rnd(marked.length)], left[rnd(left.length)]);
  }
  const matrix = core.paths(plan);
  if (!matrix) return null;
  const offered = exerciseRows(plan, 0).filter((i) => {
    const rows = detourRows(matrix, plan, i);
    const prices = rows.map((r) => plan.price[r]).sort((a, b) => b - a);
    const sum = prices.reduce((all, price) => all + price, 0);
    if (rows.length < 3 || rows.length > 5 || prices[0] === prices[1]) return false;
    const own = plan.price[i];
    return own < sum && (saves ? own < prices[0] : own > prices[0]);
  });
  if (offered.length === 0) return null;
  const row = offered[rnd(offered.length)];
  const rows = detourRows(matrix, plan, row);
  return {
    kind: 1,
    plan,
    row,
    second: null,
    ask: `Trench ${row + 1} (${ends(plan, row)}) is offered at ${money(plan.price[row])}. ` +
      'Should it come in, and for which trench?',
    choices: [
      { key: 'out', words: 'It stays out' },
      ...rows.map((r) => ({ key: String(r), words: `For trench ${r + 1}` })),
    ],
  };
}

/** Two plans of one price: both cheapest, or neither.
 * @param {Core} core @param {Tables} tables @param {Random} rnd @param {boolean} both
 * @returns {Exercise | null} */
function exerciseEqual(core, tables, rnd, both) {
  const plan = tables(5 + rnd(3), 2, 5);
  plan.mark = core.mst1(plan).mark;
  const second = both ? exerciseOther(core, plan) : exerciseDearer(core, plan);
  if (!second) return null;
  /** @param {Uint8Array} one @param {Uint8Array} two */
  const only = (one, two) => [...one.keys()].filter((i) => one[i] === 1 && two[i] === 0)
    .map((i) => trench(plan, i)).join(' and ');
  const total = money(core.total(plan, plan.mark).amount);
  return {
    kind: 2,
    plan,
    row: -1,
    second,
    ask: `Your plan costs ${total}. Another office has ${only(second, plan.mark)} where you have ` +
      `${only(plan.mark, second)}, and its plan costs ${total} too. What follows?`,
    choices: [
      { key: 'one', words: 'One of the two is wrong' },
      { key: 'both', words: 'Both are cheapest' },
      { key: 'none', words: 'Neither is cheapest' },
    ],
  };
}

/** Another cheapest network, where there is one.
 * @param {Core} core @param {Plan} plan */
function exerciseOther(core, plan) {
  const other = core.other(plan);
  if (other.kind !== PASSED || other.only) return null;
  return judgeExchanged(plan, other.out - 1, other.in - 1);
}

/** Two networks that cost as much more than a cheapest one: the plan becomes the first of them.
 * @param {Core} core @param {Plan} plan */
function exerciseDearer(core, plan) {
  const matrix = core.paths(plan);
  if (!matrix) return null;
  /** @type {Map<number, Uint8Array>} */
  const found = new Map();
  for (const i of exerciseRows(plan, 0)) {
    for (const r of detourRows(matrix, plan, i)) {
      const more = plan.price[i] - plan.price[r];
      const mark = judgeExchanged(plan, r, i);
      const first = found.get(more);
      if (more > 0 && first) {
        plan.mark = first;
        return mark;
      }
      found.set(more, mark);
    }
  }
  return null;
}

/** @param {Core} core @param {Tables} tables @param {Random} rnd @returns {Exercise} */
function exerciseLimit(core, tables, rnd) {
  const numbers = [MAX_JUNCTIONS - 1, MAX_JUNCTIONS, MAX_JUNCTIONS + 1, 2 * MAX_JUNCTIONS + 2];
  numbers.push(...numbers.splice(0, rnd(numbers.length)));
  return {
    kind: 3,
    plan: planOf(1, 0),
    row: -1,
    second: null,
    ask: "A junction's code is one byte. How many junctions can a table have at most?",
    choices: numbers.map((n) => ({ key: String(n), words: String(n) })),
  };
}

const MAKERS = [exerciseCount, exerciseDetour, exerciseEqual, exerciseLimit];

/** The exercise of a kind and a seed, from the class's own table where there is one; null where
 * that table has none of this kind.
 * @param {Core} core @param {number} kind @param {number} seed @param {Plan | null} own */
export function exerciseFrom(core, kind, seed, own) {
  const random = randomFrom(seed * 4 + kind);
  /** @param {number} below */
  const rnd = (below) => Math.floor(random() * below);
  const turn = rnd(2) === 0;
  /** @type {Tables} */
  const tables = (n, more, dearest) => {
    return own ? planCopy(own) : exerciseTown(rnd, n, more, dearest);
  };
  for (let k = 0; k < (own ? OWN_TRIES : TRIES); k++) {
    const exercise = MAKERS[kind](core, tables, rnd, turn);
    if (exercise) return exercise;
  }
  return null;
}

/** Whether exercises can be made of a table: it is joined, and no trench of it is struck.
 * @param {Core} core @param {Plan} p */
export function exerciseFits(core, p) {
  return !p.struck.includes(1) && p.n > 2 && core.mst1(p).kind === PASSED;
}

/** The exercise of a kind and a seed: from the class's own table, where it has one.
 * @param {Core} core @param {number} kind @param {number} seed @param {Plan | null} [own] */
export function exerciseMake(core, kind, seed, own = null) {
  const first = own && exerciseFrom(core, kind, seed, own);
  const exercise = first || exerciseFrom(core, kind, seed, null);
  if (!exercise) throw Error(`no exercise of kind ${kind} from seed ${seed}`);
  return exercise;
}

/** @param {Core} core @param {Exercise} e @returns {Answered} */
function answerCount(core, e) {
  const { kind, number } = core.cst(e.plan);
  if (kind !== REFUSED) {
    return { right: 'yes', core: 'The marked trenches are a network.', page: '' };
  }
  const page = 'The count is right, and that is not enough: a ring beside a junction that stands ' +
    'apart counts just as well.';
  return { right: 'no', core: `Refused (${number}): ${core.refusal(number)}.`, page };
}

/** @param {Core} core @param {Exercise} e @returns {Answered} */
function answerDetour(core, e) {
  const { plan, row } = e;
  const now = core.total(plan, plan.mark).amount;
  const matrix = /** @type {Uint32Array} */ (core.paths(plan));
  const rows = detourRows(matrix, plan, row);
  const dearest = /** @type {{beside: Int32Array}} */ (core.detours(plan)).beside[row];
  const sum = rows.reduce((all, r) => all + plan.price[r], 0);
  let right = 'out';
  let best = now;
  for (const r of rows) {
    const total = core.total(plan, judgeExchanged(plan, r, row)).amount;
    if (total < best) {
      best = total;
      right = String(r);
    }
  }
  const after = core.total(plan, judgeExchanged(plan, dearest, row)).amount;
  return {
    right,
    core: `The total is ${money(now)}; with trench ${row + 1} for trench ${dearest + 1} it is ` +
      `${money(after)}.`,
    page: `The detour's sum, ${money(sum)}, does not count: its dearest trench, ` +
      `${trench(plan, dearest)}, alone does.`,
  };
}

/** @param {Core} core @param {Exercise} e @returns {Answered} */
function answerEqual(core, e) {
  const { plan } = e;
  const second = { ...plan, mark: /** @type {Uint8Array} */ (e.second) };
  const [a, b] = [core.cst(plan), core.cst(second)];
  if (a.kind === PASSED && b.kind === PASSED) {
    const said = `Both are cheapest networks, of ${money(a.amount)} and ${money(b.amount)}.`;
    return { right: 'both', core: said, page: 'Two cheapest networks are no contradiction.' };
  }
  const neither = a.kind === LIGHTER && b.kind === LIGHTER;
  return {
    right: neither ? 'none' : 'one',
    core: `The least total is ${money(core.mst1(plan).amount)}.`,
    page: 'Equal prices say nothing of being cheapest.',
  };
}

/** @param {Core} core @returns {Answered} */
function answerLimit(core) {
  let n = 1;
  while (core.taken(n + 1)) n++;
  const { number } = core.cst(planOf(n + 1, 0));
  return {
    right: String(n),
    core: `${n + 1} junctions are refused (${number}): ${core.refusal(number)}.`,
    page: 'A byte has 256 codes, 0 to 255, and code 0 is no junction.',
  };
}

const ANSWERS = [answerCount, answerDetour, answerEqual, answerLimit];

/** The right answer, by the core.
 * @param {Core} core @param {Exercise} e */
export const exerciseAnswer = (core, e) => ANSWERS[e.kind](core, e);
