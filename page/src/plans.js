// Plans of another kind: with a fixed number of trenches at a junction, by districts; and the plan
// held against another office's.
import { FileFault } from './file.js';
import { byId, coreSays, pageSays } from './dom.js';
import { openedFile } from './opened.js';
import { money } from './words.js';

/** @typedef {import('./app.js').App} App */
/** @typedef {import('./plan.js').Plan} Plan */

/** @param {string} id */
const plansNumber = (id) => Math.max(0, Math.trunc(Number(byId(id).value)) || 0);

/** @param {(Node | string)[]} words */
const plansSay = (...words) => byId('plans-said').replaceChildren(...words);

/** What came of a plan that was asked for.
 * @param {App} app @param {string} wrong
 * @param {string} what */
function plansTaken(app, wrong, what) {
  if (wrong) plansSay(pageSays(wrong));
  else plansSay(coreSays(`${what}: the total is ${money(app.judgement.total)}.`));
}

/** @param {App} app */
export function plansOutlets(app) {
  const [junction, count] = [plansNumber('outlets-at'), plansNumber('outlets-count')];
  const what = `A cheapest network with exactly ${count} trenches at junction ${junction}`;
  plansTaken(app, app.outlets(junction, count), what);
}

/** @param {App} app */
export function plansDistricts(app) {
  /** @type {number[]} */
  const words = byId('districts-ends').value.trim().split(/[ ,;]+/).map(Number);
  const ends = words.filter((end) => end >= 0 && end <= app.plan.m);
  const last = ends[ends.length - 1] === app.plan.m ? ends : [...ends, app.plan.m];
  plansTaken(app, app.districts(last), 'A cheapest network from the districts');
}

/** The first row in which two tables differ, -1 where they differ in marks alone.
 * @param {Plan} p @param {Plan} q */
function plansDiffer(p, q) {
  if (p.n !== q.n || p.m !== q.m) return Math.min(p.m, q.m);
  /** @type {('left' | 'right' | 'price' | 'struck')[]} */
  const columns = ['left', 'right', 'price', 'struck'];
  return [...p.left.keys()].findIndex((i) => columns.some((name) => p[name][i] !== q[name][i]));
}

/** Holds the plan against that of another file.
 * @param {App} app @param {Uint8Array} bytes @param {string} name */
export function plansWhich(app, bytes, name) {
  let other;
  try {
    other = openedFile(app.core, bytes, name).plan;
  } catch (fault) {
    if (!(fault instanceof FileFault)) throw fault;
    plansSay(pageSays(`${name}:${fault.message}`));
    return;
  }
  const differ = plansDiffer(app.plan, other);
  if (differ >= 0) {
    plansSay(pageSays(`${name} has not the same trenches: see trench ${differ + 1}.`));
    return;
  }
  const answer = app.core.which(app.plan, other.mark);
  if (answer.result === 0) {
    plansSay(pageSays(app.core.refused(answer.number, answer.out)));
    return;
  }
  const [own, theirs] = [app.plan.mark, other.mark].map((mark) => app.core.total(app.plan, mark));
  const stands = answer.result === 1 ? app.name : name;
  plansSay(
    coreSays(`${stands} stands: it costs ${money(answer.amount)}.`),
    coreSays(`${app.name} costs ${money(own.amount)}, and ${name} ${money(theirs.amount)}.`),
  );
}
