// The verdict in words: what the core says of the plan, and what the page adds to it.
import { LIGHTER, PASSED } from './core.js';
import { bold, button, byId, coreSays, html, pageSays } from './dom.js';
import { ringsThrough } from './rings.js';
import { count, junction, money, rowNumbers, runs, trench } from './words.js';

/** @typedef {import('./app.js').App} App */
/** @typedef {{look: string, head: string, words: any[], acts: any[]}} Said */

const VERDICT_SHOWN = 9;
const GROUPS_SHOWN = 6;
const NAMES_FEW = 3;

/** @param {App} app @returns {Said} */
function verdictPassed(app) {
  const { verdict, other } = app.judgement;
  const words = [coreSays(`No network is cheaper than ${money(verdict.amount)}.`)];
  if (!other) words.push(coreSays('It is the only cheapest network.'));
  else {
    words.push(
      coreSays(
        bold('Another network costs the same'),
        `: take out ${trench(app.plan, other.out - 1)}, put in ${trench(app.plan, other.in - 1)}.`,
      ),
      pageSays('Two right answers, no contradiction.'),
    );
  }
  const acts = other ? [button('other', 'Show the other network', true)] : [];
  return { look: 'ok', head: '\u2713 Cheapest network', words, acts };
}

/** What can be saved in all is the plan's total less the least one, both of the core: the
 * subtraction is the page's.
 * @param {App} app @returns {Said} */
function verdictLighter(app) {
  const { exchange, total, least } = app.judgement;
  const acts = [button('swap', 'Make this exchange', true)];
  const all = total - (least ? least.amount : total);
  const words = exchange
    ? [
      coreSays(
        'Take out ',
        bold(trench(app.plan, exchange.out), 'out'),
        ', put in ',
        bold(trench(app.plan, exchange.in), 'in'),
        `: this saves ${money(exchange.saves)}, and no exchange of two trenches saves more.`,
      ),
      pageSays(verdictSavings(exchange.saves, all)),
    ]
    : [];
  return { look: 'less', head: `\u21c4 ${money(all)} can be saved`, words, acts };
}

/** @param {number} one @param {number} all */
function verdictSavings(one, all) {
  if (one === all) return 'Nothing more can be saved.';
  return `${money(all)} can be saved in all.`;
}

/** Marks that are no network.
 * @param {App} app @returns {Said} */
function verdictNone(app) {
  const { verdict, marks, rings } = app.judgement;
  const need = app.plan.n - 1;
  const words = marks > 0 ? [coreSays(app.core.refused(verdict.number, 0))] : [];
  if (marks === need) words.push(pageSays(bold('The count is right, and that is not enough.')));
  else words.push(pageSays(`${count(marks, 'mark', 'marks')}; a network has exactly ${need}.`));
  if (rings && marks > 0) words.push(...verdictRings(app, rings));
  return {
    look: marks > 0 ? 'no' : 'less',
    head: marks > 0 ? '\u2717 No network' : '\u25cb Nothing is marked yet',
    words,
    acts: [],
  };
}

/** @param {App} app @param {import('./rings.js').Rings} rings */
function verdictRings(app, rings) {
  const words = [];
  if (rings.ringed.length > 0) {
    const many = count(rings.ringed.length, 'marked trench is', 'marked trenches are');
    const rows = ringsThrough(app.plan, rings, rings.ringed[0]);
    const go = rings.extra > 1 ? ` Before no ring is left ${rings.extra} marks have to go.` : '';
    words.push(
      coreSays(`${many} on a ring.`),
      pageSays(bold('A ring', 'ring'), `: trenches ${rowNumbers(rows, VERDICT_SHOWN)}.${go}`),
    );
  }
  if (rings.apart.length > 0) words.push(...verdictGroups(app, rings.groups));
  return words;
}

/** The names of a few junctions in brackets; nothing where they have none, or where they are many.
 * @param {App} app @param {number[]} group */
function verdictNames(app, group) {
  const named = app.plan.names.length > 0 && group.length <= NAMES_FEW;
  return named ? ` (${group.map((v) => junction(app.plan, v)).join(', ')})` : '';
}

/** @param {App} app @param {number[][]} all the groups */
function verdictGroups(app, all) {
  const groups = all.slice(0, GROUPS_SHOWN).map((g) => runs(g) + verdictNames(app, g));
  const rest = all.length > groups.length ? `; and ${all.length - groups.length} more` : '';
  const said = `: ${groups.join('; ')}${rest}.`;
  return [coreSays(bold('Groups that stand apart', 'cut'), said)];
}

/** A table that is refused.
 * @param {App} app @returns {Said} */
function verdictRefused(app) {
  const { verdict } = app.judgement;
  const { file } = app.history.now;
  const words = [coreSays(app.core.refused(verdict.number, 0))];
  const line = file.rowLine[verdict.out - 1];
  if (verdict.out > 0 && line !== undefined) {
    words.push(pageSays(`Trench ${verdict.out}, line ${line + 1} of the file.`));
  } else if (verdict.number === 1) words.push(pageSays(`The file has ${app.plan.n} junctions.`));
  return { look: 'no', head: '\u2717 Refused', words, acts: [] };
}

/** @param {App} app */
export function verdictSaid(app) {
  const { verdict, drawn } = app.judgement;
  if (verdict.kind === PASSED) return verdictPassed(app);
  if (verdict.kind === LIGHTER) return verdictLighter(app);
  return drawn ? verdictNone(app) : verdictRefused(app);
}

/** Mend and build, where there is a network to come to.
 * @param {App} app */
function verdictActs(app) {
  const { verdict, least, marks } = app.judgement;
  if (!least) return [];
  if (least.kind !== PASSED) return [];
  if (verdict.kind === PASSED) return [];
  const mend = marks > 0 ? [button('mend', 'Mend step by step')] : [];
  return [...mend, button('build', 'Build cheapest', marks === 0)];
}

/** @param {App} app */
function verdictTotals(app) {
  const { network, drawn, total, marks, least } = app.judgement;
  if (!drawn) return [];
  const parts = [[money(total), network ? 'total' : 'marked so far']];
  parts.push([String(marks), `of ${app.plan.n - 1} marks`]);
  if (least && least.kind === PASSED) parts.push([money(least.amount), 'least total']);
  return parts.map(([figure, what]) => html('span', {}, bold(figure), ` ${what}`));
}

/** @param {App} app */
export function verdictShow(app) {
  const said = verdictSaid(app);
  const { least, drawn } = app.judgement;
  if (drawn && least && least.kind !== PASSED) {
    said.words.push(coreSays(app.core.refused(least.number, 0)));
  }
  byId('verdict').className = `card ${said.look}`;
  byId('head').textContent = said.head;
  byId('totals').replaceChildren(...verdictTotals(app));
  byId('why').replaceChildren(...said.words);
  byId('acts').replaceChildren(...said.acts, ...verdictActs(app));
  const words = [said.head, ...said.words.map((w) => w.textContent.replace('\u25c6 ', ''))];
  if (app.asked) return;
  const totals = verdictTotals(app).map((part) => part.textContent);
  byId('live').textContent = [...words, ...totals].join(' ');
}
