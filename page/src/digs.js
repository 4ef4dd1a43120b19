// The dig list of the plan that is shown, by the core, to look at and to print.
import { PASSED } from './core.js';
import { byId, html } from './dom.js';
import { junction } from './words.js';

/** @typedef {import('./app.js').App} App */

/** A line of the list: number, ends, price; or the total. Junctions have their names.
 * @param {import('./plan.js').Plan} p @param {string} line */
function digsRow(p, line) {
  const words = line.split(' ');
  if (words[0] === 'Total') {
    const total = html('td', { class: 'figure' }, words[1]);
    return html('tr', { class: 'sum' }, html('td', { colspan: 3 }, 'Total'), total, html('td'));
  }
  const cells = words.map((word, k) => {
    const end = k === 1 || k === 2;
    return html('td', k === 3 ? { class: 'figure' } : {}, end ? junction(p, Number(word)) : word);
  });
  return html('tr', {}, ...cells, html('td', { class: 'tick' }, '\u2610'));
}

/** @param {App} app */
export function digsShow(app) {
  const answer = app.digs();
  const listed = answer.kind === PASSED;
  byId('digs-note').textContent = listed
    ? 'The trenches of the plan, listed by the proved core.'
    : `No list: ${app.core.refusal(answer.number)}.`;
  const lines = listed ? answer.text.trim().split('\n') : [];
  byId('digs-rows').replaceChildren(...lines.map((line) => digsRow(app.plan, line)));
  const copy = byId('digs-table').cloneNode(true);
  for (const part of [copy, ...copy.querySelectorAll('[id]')]) part.removeAttribute('id');
  byId('paper').replaceChildren(html('h2', {}, `Dig list: ${app.name}`), copy);
  byId('digs').showModal();
}
