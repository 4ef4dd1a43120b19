// The prices of a detour as bars, and the own price as a line across: the dearest bar decides.
import { svg } from './dom.js';
import { money } from './words.js';

/** @typedef {import('./plan.js').Plan} Plan */
/** @typedef {import('./detour.js').Detour} Detour */

const BARS_SHOWN = 16;
const [BARS_WIDTH, BARS_HEIGHT, BARS_BASE, BARS_TALL] = [320, 84, 68, 50];

/** @param {Plan} p @param {number} i @param {Detour} detour */
export function barsOf(p, i, detour) {
  const rows = [...detour.rows];
  if (rows.length > BARS_SHOWN) rows.sort((a, b) => p.price[b] - p.price[a]).splice(BARS_SHOWN);
  const prices = rows.map((r) => p.price[r]);
  const top = Math.max(1, p.price[i], ...prices);
  const low = Math.min(0, p.price[i], ...prices);
  const tag = `own ${money(p.price[i])}`;
  const room = tag.length * 7 + 10;
  const step = Math.min(44, (BARS_WIDTH - room - 8) / rows.length);
  /** @param {number} price */
  const y = (price) => BARS_BASE - ((price - low) / (top - low)) * BARS_TALL;
  const own = y(p.price[i]);
  const first = rows.length < detour.rows.length ? `the ${BARS_SHOWN} dearest ` : '';
  const said = rows.map((r) => `trench ${r + 1}: ${p.price[r]}`).join(', ');
  const label = `Prices of ${first}of the detour: ${said}; own price ${p.price[i]}`;
  const box = `0 0 ${BARS_WIDTH} ${BARS_HEIGHT}`;
  return svg(
    'svg',
    { class: 'bars', viewBox: box, role: 'img', 'aria-label': label },
    ...rows.map((r, k) => barsBar(p, r, r === detour.dearest, 4 + k * step, step, y)),
    svg('path', { class: 'line', d: `M0 ${own}H${BARS_WIDTH - room}` }),
    svg('text', { class: 'tag', x: BARS_WIDTH - room + 4, y: own + 4 }, tag),
  );
}

/** @param {Plan} p @param {number} r @param {boolean} dearest @param {number} x
 * @param {number} step @param {(price: number) => number} y */
function barsBar(p, r, dearest, x, step, y) {
  const at = y(p.price[r]);
  const wide = Math.max(1, step - 5);
  const middle = x + wide / 2;
  const figure = money(p.price[r]);
  const parts = [
    svg('rect', { x, y: at, width: wide, height: Math.max(1.5, BARS_BASE - at) }),
  ];
  if (dearest || step > 7 * figure.length) {
    parts.push(svg('text', { x: middle, y: at - 3 }, figure));
  }
  if (step > 6.5 * String(r + 1).length) {
    parts.push(svg('text', { class: 'number', x: middle, y: BARS_BASE + 12 }, String(r + 1)));
  }
  return svg('g', { class: dearest ? 'dear' : '' }, ...parts);
}
