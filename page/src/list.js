// The table of trenches: a checkbox a row. One row at a time is in the tab order; arrows move, and
// space marks.
import { byId, html } from './dom.js';
import { planHas, planLeaves } from './plan.js';
import { count, ends, junction, junctionOf, money } from './words.js';

/** @typedef {import('./app.js').App} App */
/** What stands beside a row: words, a look, and what it costs or saves.
 * @typedef {{words: string, look: string, gain: number}} Standing */
/** The parts of a row that change, and what they say now.
 * @typedef {{row: any, box: any, figure: Text, standing: Text, on: boolean, struck: number,
 * price: number, words: string, look: string}} Drawn */

/** @type {Record<string, number>} */
const MOVES = { ArrowDown: 1, ArrowUp: -1, PageDown: 12, PageUp: -12, Home: -2000, End: 2000 };

const QUIET = { words: '', look: '' };

/** @param {App} app @param {number} i @returns {Standing} */
export function listStanding(app, i) {
  const { plan, judgement } = app;
  if (plan.struck[i]) return { words: 'struck', look: 'struck', gain: 0 };
  if (judgement.beside) return listAgainst(plan, i, planHas(plan, i) ? -1 : judgement.beside[i]);
  if (!judgement.rings) return { words: '', look: '', gain: 0 };
  const { on, group } = judgement.rings;
  if (planHas(plan, i)) {
    return on[i] === 1
      ? { words: 'on a ring', look: 'saves', gain: 0 }
      : { words: '', look: 'plan', gain: 0 };
  }
  return group[plan.left[i]] === group[plan.right[i]]
    ? { words: 'would close a ring', look: 'dear', gain: 1 }
    : { words: 'joins two groups', look: 'same', gain: 0 };
}

/** A row against the dearest of its detour.
 * @param {import('./plan.js').Plan} p @param {number} i
 * @param {number} dearest @returns {Standing} */
function listAgainst(p, i, dearest) {
  if (dearest < 0) return { words: '', look: 'plan', gain: 0 };
  const gain = p.price[i] - p.price[dearest];
  if (gain < 0) return { words: `saves ${money(-gain)} for ${dearest + 1}`, look: 'saves', gain };
  if (gain === 0) return { words: `same as ${dearest + 1}`, look: 'same', gain };
  return { words: `${money(gain)} dearer than ${dearest + 1}`, look: 'dear', gain };
}

export class List {
  /** @param {App} app @param {(i: number) => void} toggle */
  constructor(app, toggle) {
    this.app = app;
    this.body = byId('list-rows');
    /** @type {any[]} */
    this.rows = [];
    /** @type {Drawn[]} */
    this.drawn = [];
    this.chosen = -1;
    this.tab = 0;
    this.body.addEventListener('change', (/** @type {any} */ e) => {
      const i = this.rowOf(e);
      toggle(i);
      e.target.checked = planHas(app.shown, i); // a mark that may not turn is shown as it stands
    });
    this.body.addEventListener('click', (/** @type {any} */ e) => {
      if (e.target.type !== 'checkbox' && this.rowOf(e) >= 0) app.select(this.rowOf(e));
    });
    this.body.addEventListener('mouseover', (/** @type {any} */ e) => app.hover(this.rowOf(e)));
    this.body.addEventListener('mouseleave', () => app.hover(-1));
    this.body.addEventListener('focusin', (/** @type {any} */ e) => app.select(this.rowOf(e)));
    this.body.addEventListener('keydown', (/** @type {any} */ e) => this.key(e));
    for (const id of ['list-filter', 'list-order', 'list-at']) {
      byId(id).addEventListener('input', () => this.arrange());
    }
  }

  /** @param {any} event */
  rowOf(event) {
    const row = event.target.closest('tr');
    return row ? Number(row.dataset.row) : -1;
  }

  /** @param {any} event */
  key(event) {
    const by = MOVES[event.key];
    if (by === undefined) return;
    event.preventDefault();
    const shown = [...this.body.rows].filter((row) => !row.hidden);
    const at = shown.findIndex((row) => row.contains(event.target)) + by;
    const to = shown[Math.max(0, Math.min(shown.length - 1, at))];
    if (to) to.querySelector('input').focus();
  }

  open() {
    const { plan } = this.app;
    this.drawn = Array.from({ length: plan.m }, (_, i) => this.row(plan, i));
    this.rows = this.drawn.map(({ row }) => row);
    this.chosen = -1;
    const longest = plan.price.reduce((most, price) => Math.max(most, money(price).length), 6);
    byId('list').style.setProperty('--price-column', `${8.5 * longest + 12}px`);
    const named = plan.names.length > 0;
    byId('list').style.setProperty('--ends-column', named ? 'minmax(60px, 1fr)' : '86px');
    this.update();
    this.arrange();
    this.reach(0);
    byId('list-scroll').scrollTop = 0;
  }

  /** A row that says nothing yet. Its checkbox is named by what it is, and described by how it
   * stands.
   * @param {import('./plan.js').Plan} p @param {number} i @returns {Drawn} */
  row(p, i) {
    const [figure, standing] = [document.createTextNode(''), document.createTextNode('')];
    const id = `standing-${i + 1}`;
    const box = html('input', { type: 'checkbox', tabindex: -1, 'aria-describedby': id });
    const row = html(
      'tr',
      { 'data-row': i, role: 'row' },
      html('td', { role: 'cell' }, box),
      html('td', { role: 'cell' }, String(i + 1)),
      html('td', { role: 'cell', title: ends(p, i) }, ends(p, i)),
      html('td', { role: 'cell', class: 'figure' }, figure),
      html('td', { role: 'cell', id }, standing),
    );
    const price = NaN; // no price is drawn yet
    return { row, box, figure, standing, on: false, struck: 0, price, words: '', look: '' };
  }

  /** Writes what says something else than before. */
  update() {
    const { app } = this;
    const plan = app.shown;
    const quiet = Boolean(app.mending || app.asked);
    for (let i = 0; i < plan.m; i++) {
      const { words, look } = quiet ? QUIET : listStanding(app, i);
      const now = this.drawn[i];
      const on = planHas(plan, i);
      if (now.price !== plan.price[i]) this.priced(now, plan, i);
      if (now.words !== words) now.standing.data = words;
      if (now.struck !== plan.struck[i]) now.box.disabled = plan.struck[i] === 1;
      if (now.on !== on) now.box.checked = on;
      if (now.look !== look || now.on !== on) now.row.className = on ? `${look} on` : look;
      Object.assign(now, { on, struck: plan.struck[i], words, look });
    }
    const chosen = this.rows[this.chosen];
    if (chosen) chosen.classList.add('now'); // its look may have been written anew
    this.choose(app.selected);
  }

  /** @param {Drawn} now @param {import('./plan.js').Plan} p @param {number} i */
  priced(now, p, i) {
    const [from, to] = [p.left[i], p.right[i]].map((v) => junction(p, v));
    now.box.setAttribute('aria-label', `Trench ${i + 1}, ${from} to ${to}, price ${p.price[i]}`);
    now.figure.data = money(p.price[i]);
    now.price = p.price[i];
  }

  /** Sets off the row that is chosen.
   * @param {number} i */
  choose(i) {
    if (i === this.chosen) return;
    for (const k of [this.chosen, i]) {
      if (this.rows[k]) this.rows[k].classList.toggle('now', k === i);
    }
    this.chosen = i;
  }

  /** The row that the tab key reaches.
   * @param {number} i */
  reach(i) {
    const [old, now] = [this.rows[this.tab], this.rows[i]];
    if (old) old.cells[0].firstChild.tabIndex = -1;
    if (now) now.cells[0].firstChild.tabIndex = 0;
    this.tab = i;
  }

  /** Brings a row into sight, when the page is next laid out.
   * @param {number} i */
  scroll(i) {
    const row = this.rows[i];
    if (!row) return;
    this.reach(i);
    requestAnimationFrame(() => {
      const box = byId('list-scroll');
      const at = row.offsetTop - box.scrollTop;
      if (at >= 30 && at <= box.clientHeight - 60) return;
      box.scrollTop = row.offsetTop - box.clientHeight / 2;
    });
  }

  /** @param {number} i @param {string} filter @param {number} at a junction, or -1 for any */
  wanted(i, filter, at) {
    const { plan } = this.app;
    if (at >= 0 && plan.left[i] !== at && plan.right[i] !== at) return false;
    if (filter === 'all') return true;
    if (filter === 'plan') return planHas(plan, i);
    if (filter === 'left') return planLeaves(plan, i);
    return listStanding(this.app, i).look === filter;
  }

  /** Shows the rows that are asked for, in the order that is asked for. */
  arrange() {
    const { app, rows } = this;
    const filter = byId('list-filter').value;
    const order = byId('list-order').value;
    const word = byId('list-at').value.trim();
    const at = word === '' ? -1 : junctionOf(app.plan, word);
    const keys = rows.map((_, i) => {
      if (order === 'price') return app.plan.price[i];
      return order === 'gain' ? listStanding(app, i).gain : i;
    });
    const all = rows.map((_, i) => i).sort((a, b) => keys[a] - keys[b] || a - b);
    let shown = 0;
    for (const i of all) {
      rows[i].hidden = !this.wanted(i, filter, at);
      if (!rows[i].hidden) shown++;
    }
    this.body.replaceChildren(...all.map((i) => rows[i]));
    const every = count(rows.length, 'trench', 'trenches');
    byId('list-shown').textContent = shown === rows.length ? every : `${shown} of ${every}`;
  }
}
