// Exercises over many seeds: the core's answer is among the choices, the answer that makes the
// error is another one, and no choice is always right.
// usage: node exercises.mjs STAR.wasm SEEDS   Ends in one line 'N passed, M failed'.
import fs from 'node:fs';
import { coreOpen } from '../../page/src/core.js';
import { detourRows } from '../../page/src/detour.js';
import { KINDS, exerciseAnswer, exerciseFits } from '../../page/src/exercises.js';
import { exerciseFrom, exerciseMake } from '../../page/src/exercises.js';
import { fileRead } from '../../page/src/file.js';
import { planRows } from '../../page/src/plan.js';

const [, , module, seeds] = process.argv;
let passed = 0;
let failed = 0;

/** @param {string} what @param {boolean} holds */
function check(what, holds) {
  if (holds) passed++;
  else failed++;
  if (!holds && failed < 6) console.log('exercises:', what, 'failed');
}

/** Whether junction 1 reaches every other one over marked trenches, in a few plain lines.
 * @param {import('../../page/src/plan.js').Plan} p */
function reaches(p) {
  const seen = new Set([1]);
  for (let k = 0; k < p.n; k++) {
    for (const i of planRows(p)) {
      if (seen.has(p.left[i]) || seen.has(p.right[i])) seen.add(p.left[i]).add(p.right[i]);
    }
  }
  return seen.size === p.n;
}

/** What is asked of each kind, beyond its answer.
 * @type {((core: any, e: any, right: string) => boolean)[]} */
const KIND = [
  (core, e, right) => planRows(e.plan).length === e.plan.n - 1 &&
    (right === 'yes') === reaches(e.plan),
  (core, e, right) => {
    const rows = detourRows(core.paths(e.plan), e.plan, e.row);
    const prices = rows.map((r) => e.plan.price[r]);
    const sum = prices.reduce((all, price) => all + price, 0);
    const most = Math.max(...prices);
    const own = e.plan.price[e.row];
    return own < sum && right === (own < most ? String(rows[prices.indexOf(most)]) : 'out');
  },
  (core, e, right) => core.total(e.plan, e.plan.mark).amount ===
    core.total(e.plan, e.second).amount && right !== 'one' &&
    e.second.join() !== e.plan.mark.join(),
  (core, e, right) => right === '255',
];

/** Exercises from a class's own tables.
 * @param {import('../../page/src/core.js').Core} core */
function own(core) {
  for (const name of ['yard.txt', 'city.txt', 'grant.txt']) {
    const text = fs.readFileSync(new URL(`../../console/examples/${name}`, import.meta.url));
    const { plan } = fileRead(core, text.toString('latin1'));
    let made = 0;
    for (let k = 0; k < 30; k++) {
      const e = exerciseFrom(core, k % 3, k, plan);
      if (!e) continue;
      made++;
      const { right } = exerciseAnswer(core, e);
      /** @param {any} p */
      const columns = (p) => [p.left, p.right, p.price].join();
      const same = columns(e.plan) === columns(plan);
      check(`${name} ${k}`, same && KIND[k % 3](core, e, right));
    }
    check(`${name}: exercises of its own`, exerciseFits(core, plan) && made >= 10);
  }
}

/** @param {import('../../page/src/core.js').Core} core */
function run(core) {
  KINDS.forEach((name, kind) => {
    /** @type {Record<string, number>} */
    const rights = {};
    for (let seed = 1; seed <= Number(seeds); seed++) {
      const e = exerciseMake(core, kind, seed);
      const { right } = exerciseAnswer(core, e);
      const at = e.choices.findIndex((choice) => choice.key === right);
      const same = JSON.stringify(e) === JSON.stringify(exerciseMake(core, kind, seed));
      check(`${name} ${seed}`, at >= 0 && same && KIND[kind](core, e, right));
      rights[at] = (rights[at] || 0) + 1;
    }
    const most = Math.max(...Object.values(rights));
    check(`${name}: no choice is always right`, most < 0.7 * Number(seeds));
    console.log(`${name}: the right choice is ${JSON.stringify(rights)}`);
  });
  own(core);
  console.log(`${passed} passed, ${failed} failed`);
  process.exit(failed ? 1 : 0);
}

coreOpen(fs.readFileSync(module)).then(run);
