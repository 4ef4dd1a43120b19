// The price of the chosen trench: typed, or moved along the curve of the least total, whose knee is
// the breaking price. The plan's own total is a second line. The curve is drawn from the core's
// least total at the price that stands, and from its breaking price.
import { MAX_PRICE, MIN_PRICE, NEVER, PASSED } from './core.js';
import { byId, coreSays, svg } from './dom.js';
import { planHas } from './plan.js';
import { money } from './words.js';

/** @typedef {import('./app.js').App} App */

const [CURVE_LEFT, CURVE_WIDTH, CURVE_TOP, CURVE_BASE] = [8, 284, 14, 58];
const CURVE_TOTAL = 300; // the width of its view box

export class Price {
  /** @param {App} app */
  constructor(app) {
    this.app = app;
    this.row = -1;
    /** @type {number | null} the breaking price, where there is one */
    this.breaking = null;
    this.low = 0;
    this.high = 1;
    this.number = byId('price-number');
    this.range = byId('price-range');
    this.range.addEventListener('input', () => this.move(Number(this.range.value)));
    this.range.addEventListener('change', () => this.settle());
    this.number.addEventListener('change', () => this.type());
    const curve = byId('price-curve');
    curve.addEventListener('pointerdown', (/** @type {any} */ e) => {
      curve.setPointerCapture(e.pointerId);
      this.drag(e);
    });
    curve.addEventListener('pointermove', (/** @type {any} */ e) => {
      if (curve.hasPointerCapture(e.pointerId)) this.drag(e);
    });
    curve.addEventListener('lostpointercapture', () => this.settle());
  }

  /** The price under a pointer on the curve.
   * @param {any} e */
  drag(e) {
    const box = byId('price-curve').getBoundingClientRect();
    const x = ((e.clientX - box.left) / box.width) * CURVE_TOTAL;
    const share = Math.min(1, Math.max(0, (x - CURVE_LEFT) / CURVE_WIDTH));
    this.move(Math.round(this.low + share * (this.high - this.low)));
  }

  /** @param {number} price */
  move(price) {
    if (price !== this.app.plan.price[this.row]) this.app.previewPrice(this.row, price);
  }

  settle() {
    this.app.settlePrice(this.row);
  }

  type() {
    const price = Number(this.number.value);
    const whole = this.number.value.trim() !== '' && Number.isInteger(price);
    if (whole && price >= MIN_PRICE && price <= MAX_PRICE) {
      this.move(price);
      this.settle();
      this.frame();
    }
    this.number.value = this.app.plan.price[this.row];
  }

  /** The part of the curve that is drawn: own price, breaking price, 0 and some room. */
  frame() {
    const own = this.app.plan.price[this.row];
    const breaking = this.breaking === null ? own : this.breaking;
    const room = Math.ceil(Math.max(4, Math.abs(own), Math.abs(breaking)) * 0.6);
    const least = Math.min(0, own, breaking);
    this.low = Math.max(MIN_PRICE, least < 0 ? least - room : 0);
    this.high = Math.min(MAX_PRICE, Math.max(own, breaking, 1) + room);
    this.range.min = this.low;
    this.range.max = this.high;
  }

  /** Shows the price of a row.
   * @param {number} row */
  show(row) {
    const { app } = this;
    const answer = row < 0 || app.plan.struck[row] ? null : app.breaking(row);
    const known = answer !== null && (answer.kind === PASSED || answer.kind === NEVER);
    byId('price').hidden = !known;
    if (!answer || !known) {
      this.row = -1;
      return;
    }
    const same = this.row === row;
    this.row = row;
    this.breaking = answer.kind === PASSED ? answer.amount : null;
    const own = app.plan.price[row];
    if (!same || own < this.low || own > this.high) this.frame();
    this.range.value = own;
    if (document.activeElement !== this.number) this.number.value = own;
    this.draw();
  }

  draw() {
    const { app, row, low, high, breaking } = this;
    const own = app.plan.price[row];
    const at = [low, ...(breaking === null ? [] : [breaking]), high];
    const curve = at.filter((price) => price >= low && price <= high)
      .map((price) => [price, this.leastAt(price)]);
    const ends = app.judgement.network ? [low, high] : [];
    const plan = ends.map((price) => [price, this.planAt(price)]);
    const totals = [...curve, ...plan].map((point) => point[1]);
    const [least, most] = [Math.min(...totals), Math.max(...totals)];
    /** @param {number[]} point */
    const pixels = ([price, total]) => {
      const x = CURVE_LEFT + ((price - low) / (high - low)) * CURVE_WIDTH;
      const share = (total - least) / (most - least || 1);
      return `${x.toFixed(1)} ${(CURVE_BASE - share * (CURVE_BASE - CURVE_TOP)).toFixed(1)}`;
    };
    /** @param {string} look @param {number[][]} points */
    const line = (look, points) => {
      return svg('path', { class: look, d: `M${points.map(pixels).join('L')}` });
    };
    const now = this.leastAt(own);
    const [x, y] = pixels([own, now]).split(' ');
    byId('price-curve').replaceChildren(
      ...(plan.length > 0 ? [line('mine', plan)] : []),
      line('least', curve),
      ...this.knee(),
      svg('circle', { cx: x, cy: y, r: 4.5 }),
      svg('text', { class: 'axis', x: 4, y: 75 }, money(low)),
      svg('text', { class: 'axis end', x: 296, y: 75 }, money(high)),
    );
    byId('price-says').replaceChildren(coreSays(`At this price the least total is ${money(now)}.`));
    byId('price-curve').setAttribute('aria-label', this.label());
  }

  /** The least total at a price: it follows the price up to the breaking price, and not above it.
   * @param {number} price */
  leastAt(price) {
    const { app, row, breaking } = this;
    const { least } = app.judgement;
    /** @param {number} x */
    const counted = (x) => (breaking === null ? x : Math.min(x, breaking));
    return (least ? least.amount : 0) + counted(price) - counted(app.plan.price[row]);
  }

  /** The plan's own total at a price.
   * @param {number} price */
  planAt(price) {
    const { app, row } = this;
    const moved = planHas(app.plan, row) ? price - app.plan.price[row] : 0;
    return app.judgement.total + moved;
  }

  knee() {
    const { breaking, low, high } = this;
    if (breaking === null) {
      return [svg('text', { class: 'middle', x: 150, y: 75 }, 'no breaking price')];
    }
    const x = CURVE_LEFT + ((breaking - low) / (high - low)) * CURVE_WIDTH;
    const words = `breaking price ${money(breaking)}`;
    return [
      svg('path', { class: 'knee', d: `M${x.toFixed(1)} 4V64` }),
      svg('text', { class: 'middle', x: Math.min(220, Math.max(90, x)).toFixed(1), y: 75 }, words),
    ];
  }

  label() {
    const { breaking } = this;
    if (breaking === null) return 'The least total follows this price.';
    return `The least total follows this price up to ${breaking}, and not above it.`;
  }
}
