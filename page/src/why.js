// Why a trench is in the plan or left out: sentences, and what the picture sets off for them.
import { NEVER, PASSED } from './core.js';
import { barsOf } from './bars.js';
import { detourCut, detourOf } from './detour.js';
import { bold, coreSays, html, pageSays } from './dom.js';
import { judgeExchanged } from './judge.js';
import { planHas } from './plan.js';
import { ringsThrough } from './rings.js';
import { count, junction, money, rowNumbers, some, stops, trench } from './words.js';

/** @typedef {import('./app.js').App} App */
/** Rows under and over the lines with their looks, texts at rows, looks of junctions, and whether
 * all else is shown faintly.
 * @typedef {{under: [number, string][], over: [number, string][], tags: Map<number, string>,
 * spots: Map<number, string>, quiet: boolean}} SetOff */
/** @typedef {{words: any[], setOff: SetOff, swap: number[] | null, saves: number}} Why */

const WHY_SHOWN = 12;

/** @returns {SetOff} */
export function setOffNone() {
  return { under: [], over: [], tags: new Map(), spots: new Map(), quiet: false };
}

/** The sign between two prices.
 * @param {number} a @param {number} b */
function whySign(a, b) {
  if (a < b) return '<';
  return a === b ? '=' : '>';
}

/** What the core says of a row whatever the marks: its breaking price.
 * @param {App} app
 * @param {number} i */
function whyBreaking(app, i) {
  const answer = app.breaking(i);
  if (answer.kind === PASSED) {
    const price = money(answer.amount);
    const words = 'below it, it is in every cheapest network, at it in some, above it in none';
    return [coreSays(`Its breaking price is ${price}: ${words}.`)];
  }
  if (answer.kind === NEVER) {
    return [coreSays('No other route joins its ends: it is in every network.')];
  }
  return [];
}

/** What the core says of an exchange.
 * @param {App} app @param {number} out @param {number} into */
function whyExchanged(app, out, into) {
  const answer = app.core.total(app.plan, judgeExchanged(app.plan, out, into));
  const total = money(answer.amount);
  return coreSays(`With trench ${into + 1} for trench ${out + 1} the total is ${total}.`);
}

/** The end of the sentence on a trench that is left out.
 * @param {number} own @param {number} dear */
function whyStays(own, dear) {
  if (own < dear) return [' It ', bold(`saves ${money(dear - own)}`), '.'];
  if (own > dear) return [` It would cost ${money(own - dear)} more: `, bold('it stays out'), '.'];
  return [' ', bold('Another network of the same price'), ', no contradiction.'];
}

/** A trench that is left out of a network.
 * @param {App} app @param {number} i @returns {Why} */
function whyLeft(app, i) {
  const p = app.plan;
  const { matrix, beside } = app.judgement;
  if (!matrix || !beside) throw Error('no detours of marks that are no network');
  const detour = detourOf(matrix, p, i, beside[i]);
  const [own, dear] = [p.price[i], p.price[detour.dearest]];
  const setOff = setOffNone();
  setOff.quiet = true;
  for (const r of detour.rows) {
    setOff.under.push([r, r === detour.dearest ? 'dear' : 'detour']);
    if (detour.rows.length <= WHY_SHOWN) setOff.tags.set(r, money(p.price[r]));
  }
  setOff.tags.set(detour.dearest, `dearest ${money(dear)}`);
  setOff.over.push([i, 'chosen']);
  for (const v of detour.stops) setOff.spots.set(v, 'on');
  const words = [
    coreSays(
      'Left out. The ',
      bold('dearest trench', 'out'),
      ` of its detour is ${trench(p, detour.dearest)}.`,
    ),
    pageSays(
      bold(`${money(own)} ${whySign(own, dear)} ${money(dear)}`),
      '.',
      ...whyStays(own, dear),
    ),
    barsOf(p, i, detour),
    pageSays(
      `Detour ${stops(p, detour.stops)}. Its sum, `,
      html('s', {}, money(detour.sum)),
      ', does not count.',
    ),
    whyExchanged(app, detour.dearest, i),
  ];
  return { words, setOff, swap: [detour.dearest, i], saves: dear - own };
}

/** The smaller side of a cut.
 * @param {Set<number>} far @param {number} n */
function whySide(far, n) {
  if (far.size * 2 <= n) return [...far];
  return Array.from({ length: n }, (_, v) => v + 1).filter((v) => !far.has(v));
}

/** A trench of a network.
 * @param {App} app @param {number} i @returns {Why} */
function whyIn(app, i) {
  const p = app.plan;
  const { matrix, beside } = app.judgement;
  if (!matrix || !beside) throw Error('no cuts of marks that are no network');
  const cut = { ...detourCut(matrix, p, i), best: beside[i] };
  const side = whySide(cut.far, p.n);
  const setOff = setOffNone();
  setOff.quiet = true;
  setOff.over.push([i, 'chosen']);
  for (const v of side) setOff.spots.set(v, 'far');
  const names = some(side.map((v) => junction(p, v)), 8);
  const off = `${count(side.length, 'junction is', 'junctions are')} cut off (${names})`;
  if (cut.best < 0) {
    const words = [
      coreSays('In the plan. No trench could take its place.'),
      pageSays(`Without it ${off}, and no trench joins them again.`),
    ];
    return { words, setOff, swap: null, saves: 0 };
  }
  const [own, best] = [p.price[i], p.price[cut.best]];
  const again = count(cut.across.length, 'trench joins', 'trenches join');
  for (const k of cut.across) setOff.under.push([k, k === cut.best ? 'comes' : 'across']);
  setOff.tags.set(cut.best, `${cut.best + 1}: ${money(best)}`);
  const words = [
    coreSays(`In the plan. The cheapest that could take its place is ${trench(p, cut.best)}.`),
    pageSays(
      bold(`${money(own)} ${whySign(own, best)} ${money(best)}`),
      '.',
      ...(own < best ? [' ', bold('It stays'), '.'] : whyStays(best, own)),
    ),
    pageSays(`Without it ${off}; ${again} them again.`),
    whyExchanged(app, i, cut.best),
  ];
  return { words, setOff, swap: [i, cut.best], saves: own - best };
}

/** A trench where the marks are no network.
 * @param {App} app @param {number} i @returns {Why} */
function whyApart(app, i) {
  const p = app.plan;
  const rings = /** @type {import('./rings.js').Rings} */ (app.judgement.rings);
  const setOff = setOffNone();
  setOff.over.push([i, 'chosen']);
  const joined = rings.group[p.left[i]] === rings.group[p.right[i]];
  let words = pageSays('Left out. It ', bold('joins two groups'), ' that no marked trench joins.');
  const ring = rings.on[i] === 1 ? ringsThrough(p, rings, i) : [];
  if (ring.length > 0) {
    words = coreSays(
      'Marked, and ',
      bold('on a ring'),
      ': its mark can go, and the junctions stay joined.',
    );
  } else if (planHas(p, i)) words = coreSays('Marked, and on no ring.');
  else if (joined) {
    const joins = 'Left out. Marked trenches join its ends: marking it ';
    words = pageSays(joins, bold('closes a ring'), '.');
  }
  const shown = ring.length > 0 ? [pageSays(`A ring: trenches ${rowNumbers(ring, 10)}.`)] : [];
  return { words: [words, ...shown], setOff, swap: null, saves: 0 };
}

/** @param {App} app @param {number} i @returns {Why} */
function whyStruck(app, i) {
  const setOff = setOffNone();
  setOff.over.push([i, 'chosen']);
  const words = [pageSays('Struck: it keeps its number, and is left out of everything.')];
  return { words, setOff, swap: null, saves: 0 };
}

/** @param {App} app @param {number} i @returns {Why} */
function whyCase(app, i) {
  if (app.plan.struck[i]) return whyStruck(app, i);
  if (!app.judgement.network) return whyApart(app, i);
  return planHas(app.plan, i) ? whyIn(app, i) : whyLeft(app, i);
}

/** @param {App} app @param {number} i */
export function whyOf(app, i) {
  const why = whyCase(app, i);
  if (!app.plan.struck[i]) why.words.push(...whyBreaking(app, i));
  why.setOff.tags.set(i, `${i + 1}: ${money(app.plan.price[i])}`);
  return why;
}
