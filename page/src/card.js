// The card of one trench: why it is in or out, what can be done with it, and its price.
import { button, byId } from './dom.js';
import { planHas } from './plan.js';
import { ends, money } from './words.js';

/** @typedef {import('./app.js').App} App */
/** @typedef {import('./why.js').Why} Why */

/** @param {App} app @param {number} i @param {Why} why */
function cardActs(app, i, why) {
  const { plan } = app;
  const acts = [];
  if (!plan.struck[i]) acts.push(button('mark', planHas(plan, i) ? 'Unmark' : 'Mark'));
  if (why.swap) {
    const [out, into] = why.swap;
    const saves = why.saves > 0 ? `, saves ${money(why.saves)}` : '';
    const same = why.saves === 0 ? ', same price' : '';
    const words = `Exchange ${out + 1} for ${into + 1}${saves}${same}`;
    acts.push(button('exchange', words, why.saves > 0));
  }
  acts.push(button('strike', plan.struck[i] ? 'Restore' : 'Strike'));
  return acts;
}

/** Shows the card of a row, or none where it is below 0.
 * @param {App} app @param {number} i
 * @param {Why | null} why */
export function cardShow(app, i, why) {
  const card = byId('card');
  card.hidden = !why;
  document.body.classList.toggle('chosen', Boolean(why));
  if (!why) return;
  const looked = i !== app.selected;
  card.classList.toggle('peek', looked);
  byId('which').textContent = `Trench ${i + 1}: ${ends(app.plan, i)}, ${money(app.plan.price[i])}`;
  byId('reason').replaceChildren(...why.words);
  byId('card-acts').replaceChildren(...(looked ? [] : cardActs(app, i, why)));
}
