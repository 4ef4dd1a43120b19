// Mending step by step: the core decides on the steps; any of them can be looked at.
import { ADDED, DROPPED } from './core.js';
import { byId, coreSays } from './dom.js';
import { planSum } from './plan.js';
import { count, money, trench } from './words.js';
import { setOffNone } from './why.js';

/** @typedef {import('./app.js').App} App */
/** @typedef {import('./core.js').Step} Step */

/** @param {import('./plan.js').Plan} p @param {Step} step */
function mendWords(p, step) {
  if (step.kind === DROPPED) return `Drop ${trench(p, step.out - 1)}: it closes a ring.`;
  if (step.kind === ADDED) return `Add ${trench(p, step.in - 1)}: it joins two groups.`;
  return `Exchange ${trench(p, step.out - 1)} for ${trench(p, step.in - 1)}, which costs less.`;
}

/** What the picture sets off: the row that goes and the row that comes.
 * @param {App} app */
export function mendSetOff(app) {
  const setOff = setOffNone();
  const step = app.mending && app.mending.steps[app.mending.at];
  if (!step) return setOff;
  const { price } = app.plan;
  if (step.out > 0) {
    setOff.over.push([step.out - 1, 'gone'], [step.out - 1, 'goes']);
    setOff.tags.set(step.out - 1, `out ${money(price[step.out - 1])}`);
  }
  if (step.in > 0) {
    setOff.under.push([step.in - 1, 'comes']);
    setOff.tags.set(step.in - 1, `in ${money(price[step.in - 1])}`);
  }
  return setOff;
}

/** @param {App} app */
export function mendShow(app) {
  byId('mend').hidden = !app.mending;
  byId('verdict').hidden = Boolean(app.mending);
  if (!app.mending) return;
  const { steps, at } = app.mending;
  const step = steps[at];
  const all = count(steps.length, 'step', 'steps');
  byId('mend-at').textContent = step ? `Step ${at + 1} of ${steps.length}` : `All ${all} done`;
  const words = step ? mendWords(app.plan, step) : 'No network is cheaper than these marks.';
  byId('mend-what').replaceChildren(coreSays(words));
  const [now, before] = [app.shown, app.plan].map((p) => money(planSum(p)));
  byId('mend-sum').textContent = `The marked trenches cost ${now}; at the start ${before}.`;
  const range = byId('mend-range');
  range.max = steps.length;
  range.value = at;
  for (const act of ['mend-first', 'mend-back']) byId(act).disabled = at === 0;
  for (const act of ['mend-next', 'mend-last']) byId(act).disabled = !step;
}
