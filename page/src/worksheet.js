// A worksheet on paper: exercises of every kind, and their answers on the last page.
import { byId, html } from './dom.js';
import { KINDS, exerciseAnswer, exerciseMake } from './exercises.js';
import { ends, money } from './words.js';

/** @typedef {import('./core.js').Core} Core */
/** @typedef {import('./exercises.js').Exercise} Exercise */

const SEEDS = 3;

/** The trenches of an exercise, those of the plan with a cross.
 * @param {Exercise} e */
function worksheetTable(e) {
  const { plan } = e;
  const head = ['No.', 'Ends', 'Price', 'Plan'].map((word) => html('th', { scope: 'col' }, word));
  const rows = Array.from(plan.left, (_, i) => {
    const mark = plan.mark[i] === 1 ? '\u2612' : '\u2610';
    const words = [String(i + 1), ends(plan, i), money(plan.price[i]), mark];
    return html('tr', {}, ...words.map((word) => html('td', {}, word)));
  });
  return html('table', {}, html('thead', {}, html('tr', {}, ...head)), html('tbody', {}, ...rows));
}

/** @param {Exercise} e @param {number} number */
function worksheetAsk(e, number) {
  const choices = e.choices.map(({ words }) => html('li', {}, `\u2610 ${words}`));
  return html(
    'section',
    { class: 'ask' },
    html('h3', {}, `${number}. ${KINDS[e.kind]}`),
    html('p', {}, e.ask),
    html('ul', {}, ...choices),
    ...(e.plan.m > 0 ? [worksheetTable(e)] : []),
  );
}

/** @param {Core} core @param {Exercise} e @param {number} number */
function worksheetAnswer(core, e, number) {
  const { right, core: said, page } = exerciseAnswer(core, e);
  const choice = e.choices.find(({ key }) => key === right);
  const words = choice ? choice.words : right;
  return html('p', {}, html('b', {}, `${number}. ${words}.`), ` \u25c6 ${said} ${page}`);
}

/** Puts the worksheet of a seed on paper, and prints it.
 * @param {Core} core @param {number} seed */
export function worksheetPrint(core, seed) {
  const all = Array.from({ length: SEEDS * KINDS.length }, (_, k) => {
    return exerciseMake(core, k % KINDS.length, seed + Math.floor(k / KINDS.length));
  }).filter((e, k) => e.kind !== 3 || k < KINDS.length);
  byId('paper').replaceChildren(
    html('h2', {}, `Worksheet ${seed}`),
    ...all.map((e, k) => worksheetAsk(e, k + 1)),
    html(
      'section',
      { class: 'answers' },
      html('h2', {}, `Answers to worksheet ${seed}`),
      ...all.map((e, k) => worksheetAnswer(core, e, k + 1)),
    ),
  );
  document.body.classList.add('paper');
  window.print();
  document.body.classList.remove('paper');
}
