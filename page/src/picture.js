// The network as SVG. Trenches and junctions stand in one group that is moved and scaled, and whose
// strokes do not scale; numbers and prices lie above it in pixels, and are placed anew for each
// view.
import { bendPath, bendPoint } from './bends.js';
import { svg } from './dom.js';
import { Labels, Taken, labelHigh, labelWide, labelsPlace } from './labels.js';
import { layoutOf } from './layout.js';
import { planHas } from './plan.js';
import { View, viewBox } from './view.js';
import { setOffNone } from './why.js';
import { money } from './words.js';

/** @typedef {import('./plan.js').Plan} Plan */
/** @typedef {import('./labels.js').Wanted} Wanted */

const SHARES = [0.5, 0.42, 0.58, 0.34, 0.66, 0.27, 0.73];
const FAR_SHARES = [0.78, 0.7, 0.86, 0.62, 0.54, 0.46]; // away from a junction of many trenches
const NEAR_SHARES = FAR_SHARES.map((share) => 1 - share);
const TAG_SHARES = Array.from({ length: 19 }, (_, k) => (k + 1) / 20);
const MANY = 12;
const TAG_ASIDE = [[0, -18], [0, 18], [-34, 0], [34, 0], [0, -34], [0, 34], [-50, -20], [50, 20],
  [50, -20], [-50, 20], [0, -52], [0, 52], [-70, -40], [70, -40], [-70, 40], [70, 40], [0, -72],
  [0, 72], [-110, 0], [110, 0]];
const PIECES = 8;
const OWN_FROM = 40; // pixels of a usual trench from which prices of the plan are shown
const LEFT_FROM = 62; // and those of trenches that are left out
const NAME_SIZE = 11;
const NAME_MOST = 24; // letters of a name that are shown
const BUTTONS = { w: 56, h: 140 }; // the corner of the zoom buttons

export class Picture {
  /** @param {any} root an svg element @param {import('./core.js').Core} core */
  constructor(root, core) {
    this.root = root;
    this.core = core;
    this.view = new View();
    /** @type {Plan | null} */
    this.plan = null;
    /** @type {import('./layout.js').Places} */
    this.at = { x: new Float64Array(0), y: new Float64Array(0), bends: new Float64Array(0) };
    this.lengths = new Float32Array(0);
    this.samples = new Float32Array(0);
    this.setOff = setOffNone();
    this.asked = false;
    this.radius = 5;
    this.usual = 1;
    this.near = 1;
    this.crowded = 1; // how many more trenches there are than can have their prices shown
    this.rowsAt = new Uint16Array(0);
    this.states = new Uint8Array(0); // of each row as it is drawn: left out, struck, in the plan
    /** @type {any[]} */
    this.lines = [];
    /** @type {any[]} */
    this.discs = [];
    this.groups = Object.fromEntries(
      ['under', 'left', 'plan', 'over', 'discs'].map((name) => [name, svg('g', { class: name })]),
    );
    this.world = svg('g', {}, ...Object.values(this.groups));
    this.top = svg('g', { class: 'top' });
    this.labels = new Labels(this.top, () => svg('text'));
    root.append(this.world, this.top);
    new ResizeObserver(() => this.resized()).observe(root);
  }

  measure() {
    const box = this.root.getBoundingClientRect();
    if (box.width === 0) return false;
    this.view.w = box.width;
    this.view.h = box.height;
    this.root.setAttribute('viewBox', `0 0 ${box.width} ${box.height}`);
    return true;
  }

  resized() {
    if (!this.plan || matchMedia('print').matches || !this.measure()) return;
    if (this.view.touched) this.draw();
    else this.fit();
  }

  /** @param {Plan} p @param {number[][] | null} given coordinates of the junctions, or null */
  open(p, given) {
    this.measure();
    this.plan = p;
    this.at = layoutOf(this.core, p, given, this.view.w >= this.view.h);
    this.measureTable(p);
    for (const group of Object.values(this.groups)) group.replaceChildren();
    this.lines = Array.from({ length: p.m }, (_, i) => {
      return svg('path', { d: bendPath(p, this.at, i) });
    });
    this.groups.left.append(...this.lines);
    this.states = new Uint8Array(p.m);
    this.discs = Array.from({ length: p.n }, (_, v) => {
      const d = `M${this.at.x[v]} ${this.at.y[v]}h0.0001`; // a length of 0 is drawn in many ways
      return svg('g', {}, svg('path', { class: 'rim', d }), svg('path', { class: 'disc', d }));
    });
    this.groups.discs.append(...this.discs);
    this.setOff = setOffNone();
    this.marks(p);
    this.fit();
  }

  /** Points along each row, the usual length of a row, and how near junctions stand.
   * @param {Plan} p */
  measureTable(p) {
    this.samples = new Float32Array(2 * (PIECES + 1) * p.m);
    this.lengths = new Float32Array(p.m);
    for (let i = 0; i < p.m; i++) {
      for (let k = 0; k <= PIECES; k++) {
        const q = bendPoint(p, this.at, i, k / PIECES);
        this.samples.set([q.x, q.y], 2 * ((PIECES + 1) * i + k));
      }
      const [a, b] = [p.left[i] - 1, p.right[i] - 1];
      this.lengths[i] = Math.hypot(this.at.x[a] - this.at.x[b], this.at.y[a] - this.at.y[b]);
    }
    this.usual = this.lengths.slice().sort()[p.m >> 1] || 1;
    this.crowded = Math.max(1, p.m / (2.5 * p.n));
    this.rowsAt = new Uint16Array(p.n + 1);
    for (const column of [p.left, p.right]) column.forEach((v) => this.rowsAt[v]++);
    const nearest = new Float64Array(p.n).fill(Infinity);
    for (let a = 0; a < p.n; a++) {
      for (let b = 0; b < p.n; b++) {
        const far = Math.hypot(this.at.x[a] - this.at.x[b], this.at.y[a] - this.at.y[b]);
        if (a !== b && far < nearest[a]) nearest[a] = far;
      }
    }
    this.near = Math.min(1, nearest.sort()[Math.floor(p.n / 10)]);
  }

  /** The marks and strikes as they stand now; nothing moves.
   * @param {Plan} p */
  marks(p) {
    this.plan = p;
    for (let i = 0; i < p.m; i++) {
      const state = planHas(p, i) ? 2 : p.struck[i];
      if (this.states[i] === state) continue;
      this.states[i] = state;
      (state === 2 ? this.groups.plan : this.groups.left).append(this.lines[i]);
      this.lines[i].classList.toggle('struck', state === 1);
    }
    this.draw();
  }

  /** @param {import('./why.js').SetOff} setOff */
  show(setOff) {
    const { plan } = this;
    if (!plan) return;
    const before = this.setOff.spots;
    this.setOff = setOff;
    for (const name of /** @type {('under' | 'over')[]} */ (['under', 'over'])) {
      const paths = setOff[name].map(([i, look]) => {
        return svg('path', { class: look, d: bendPath(plan, this.at, i) });
      });
      this.groups[name].replaceChildren(...paths);
    }
    for (const v of new Set([...before.keys(), ...setOff.spots.keys()])) {
      const look = setOff.spots.get(v) || '';
      if ((before.get(v) || '') !== look) this.discs[v - 1].setAttribute('class', look);
    }
    this.root.classList.toggle('quiet', setOff.quiet);
    this.draw();
  }

  fit() {
    if (!this.plan) return;
    const all = Array.from({ length: this.plan.n }, (_, v) => v + 1);
    this.view.fit(viewBox(this.at, all), 230 / Math.min(1, this.usual));
    this.draw();
  }

  /** @param {number} by @param {number} [x] @param {number} [y] */
  zoom(by, x = this.view.w / 2, y = this.view.h / 2) {
    this.view.zoom(by, x, y);
    this.draw();
  }

  /** @param {number} dx @param {number} dy */
  pan(dx, dy) {
    this.view.pan(dx, dy);
    this.draw();
  }

  /** Brings rows into sight.
   * @param {number[]} rows @param {number} below pixels that are covered */
  reveal(rows, below) {
    const { plan } = this;
    if (!plan) return;
    const junctions = rows.flatMap((i) => [plan.left[i], plan.right[i]]);
    if (junctions.length > 0) {
      this.view.reveal(viewBox(this.at, junctions), below, 64 / this.usual);
    }
    this.draw();
  }

  /** Brings a junction to the middle, near enough to read.
   * @param {number} v */
  find(v) {
    const scale = Math.max(this.view.k, 70 / this.usual);
    this.view.zoom(scale / this.view.k, 0, 0);
    const q = this.view.pixels({ x: this.at.x[v - 1], y: this.at.y[v - 1] });
    this.pan(this.view.w / 2 - q.x, this.view.h / 2 - q.y);
  }

  draw() {
    if (this.asked) return;
    this.asked = true;
    requestAnimationFrame(() => {
      this.asked = false;
      this.drawNow();
    });
  }

  drawNow() {
    if (!this.plan) return;
    const { k, x, y } = this.view;
    /** @param {number} least @param {number} most @param {number} size */
    const within = (least, most, size) => Math.min(most, Math.max(least, size));
    this.radius = within(2.5, 15, k * Math.min(0.18, 0.42 * this.near));
    this.world.setAttribute('transform', `translate(${x} ${y}) scale(${k})`);
    this.root.style.setProperty('--k', String(k)); // on paper strokes scale with the rest
    const sizes = {
      dot: 2 * this.radius,
      rim: 2 * this.radius + within(1.5, 3.4, this.radius / 4),
      plan: within(1.6, 6, Math.min(k * 0.055, this.radius * 0.45)),
      left: within(0.7, 1.8, k * 0.014),
      glow: within(7, 16, k * 0.14),
    };
    for (const [name, size] of Object.entries(sizes)) {
      this.root.style.setProperty(`--${name}-width`, `${size}px`);
    }
    this.drawLabels();
  }

  drawLabels() {
    const taken = new Taken(this.view);
    const { numbers, apart, named } = this.numbers(taken);
    taken.put(this.view.w - BUTTONS.w, this.view.w, 0, BUTTONS.h);
    const { tags, prices } = this.wanted();
    const wanted = [...tags, ...apart, ...prices, ...named];
    this.labels.show([...numbers, ...labelsPlace(taken, wanted, this.view)]);
  }

  /** The numbers of the junctions; where discs are too small for them, of those that are set off.
   * The names of those that have a number shown.
   * @param {Taken} taken */
  numbers(taken) {
    const { radius, view, setOff } = this;
    const { names } = /** @type {Plan} */ (this.plan);
    const numbers = [];
    /** @type {Wanted[]} */
    const apart = [];
    /** @type {Wanted[]} */
    const named = [];
    for (let v = 1; v <= this.discs.length; v++) {
      const { x, y } = view.pixels({ x: this.at.x[v - 1], y: this.at.y[v - 1] });
      if (x < -20 || y < -20 || x > view.w + 20 || y > view.h + 20) continue;
      taken.put(x - radius, x + radius, y - radius, y + radius);
      const text = String(v);
      const look = `number ${setOff.spots.get(v) || ''}`;
      const size = Math.min(13, radius * (v > 99 ? 0.95 : 1.1));
      if (radius >= 7) {
        numbers.push({ key: `number ${v}`, x, y, text, look, size });
        if (names[v - 1]) named.push(this.named(v, names[v - 1], { x, y }));
      } else if (setOff.spots.has(v)) {
        const at = () => ({ x, y: y - radius - 8 });
        apart.push({ key: `number ${v}`, text, look: 'number apart', size: 11, places: 1, at });
      }
    }
    return { numbers, apart, named };
  }

  /** The name of a junction, below it, above it or beside it.
   * @param {number} v @param {string} name @param {{x: number, y: number}} at @returns {Wanted} */
  named(v, name, { x, y }) {
    const letters = [...name];
    const cut = letters.length > NAME_MOST;
    const text = cut ? `${letters.slice(0, NAME_MOST - 1).join('')}\u2026` : name;
    const down = this.radius + labelHigh(NAME_SIZE) / 2 + 1;
    const aside = this.radius + labelWide(text, NAME_SIZE) / 2 + 1;
    const places = [[0, down], [0, -down], [aside, 0], [-aside, 0]];
    /** @param {number} k */
    const at = (k) => ({ x: x + places[k][0], y: y + places[k][1] });
    return { key: `name ${v}`, text, look: 'name', size: NAME_SIZE, places: places.length, at };
  }

  /** The prices to be shown: what is set off, first the row that is chosen; then the plan, then
   * what is left out. */
  wanted() {
    const p = /** @type {Plan} */ (this.plan);
    const chosen = this.setOff.over.map(([i]) => i);
    const order = [...this.setOff.tags];
    order.sort(([a], [b]) => Number(chosen.includes(b)) - Number(chosen.includes(a)));
    const tags = order.map(([i, text]) => {
      const places = this.shares(p, i).length + TAG_ASIDE.length + TAG_SHARES.length;
      /** @param {number} k */
      const at = (k) => this.aside(p, i, k);
      return { key: `tag ${i}`, text, size: 13, look: 'tag', places, at };
    });
    /** @type {Wanted[]} */
    const own = [];
    /** @type {Wanted[]} */
    const left = [];
    for (let i = 0; i < p.m; i++) {
      if (this.setOff.tags.has(i) || !this.priced(p, i)) continue;
      const marked = planHas(p, i);
      const shares = this.shares(p, i);
      /** @param {number} k */
      const at = (k) => this.along(p, i, shares[k]);
      const look = marked ? 'price own' : 'price';
      const text = money(p.price[i]);
      const label = { key: `price ${i}`, text, size: 12, look, places: shares.length, at };
      (marked ? own : left).push(label);
    }
    return { tags, prices: [...own, ...left] };
  }

  /** Whether the price of a row is shown at this scale: the row is long enough for it.
   * @param {Plan} p @param {number} i */
  priced(p, i) {
    const usual = this.view.k * this.usual;
    const from = planHas(p, i) ? OWN_FROM : LEFT_FROM * this.crowded;
    if (p.struck[i] || usual < from) return false;
    const room = this.view.k * this.lengths[i] - 2 * this.radius;
    return room >= 0.7 * labelWide(money(p.price[i]), 12);
  }

  /** The pixels at a share of a row.
   * @param {Plan} p @param {number} i @param {number} share */
  along(p, i, share) {
    return this.view.pixels(bendPoint(p, this.at, i, share));
  }

  /** Pixels where the label of a row may stand that has to have one: where any label may, around
   * its middle, and wherever the row is seen.
   * @param {Plan} p @param {number} i @param {number} k */
  aside(p, i, k) {
    const shares = this.shares(p, i);
    if (k < shares.length) return this.along(p, i, shares[k]);
    const by = k - shares.length;
    if (by >= TAG_ASIDE.length) return this.along(p, i, TAG_SHARES[by - TAG_ASIDE.length]);
    const { x, y } = this.along(p, i, shares[0]);
    return { x: x + TAG_ASIDE[by][0], y: y + TAG_ASIDE[by][1] };
  }

  /** The shares of a row's length at which its label may stand.
   * @param {Plan} p @param {number} i */
  shares(p, i) {
    const [left, right] = [this.rowsAt[p.left[i]], this.rowsAt[p.right[i]]];
    if (Math.max(left, right) < MANY || left === right) return SHARES;
    return left > right ? FAR_SHARES : NEAR_SHARES;
  }

  /** The nearest row within a distance in pixels, -1 for none.
   * @param {number} sx
   * @param {number} sy @param {number} reach */
  nearest(sx, sy, reach) {
    const { x, y } = this.view.place(sx, sy);
    const points = this.samples;
    let best = -1;
    let least = (reach / this.view.k) ** 2;
    for (let i = 0; i < this.lines.length; i++) {
      for (let k = 0; k < PIECES; k++) {
        const at = 2 * ((PIECES + 1) * i + k);
        const [dx, dy] = [points[at + 2] - points[at], points[at + 3] - points[at + 1]];
        const along = (x - points[at]) * dx + (y - points[at + 1]) * dy;
        const share = Math.max(0, Math.min(1, along / (dx * dx + dy * dy || 1)));
        const away = (x - points[at] - share * dx) ** 2 + (y - points[at + 1] - share * dy) ** 2;
        if (away < least) {
          least = away;
          best = i;
        }
      }
    }
    return best;
  }

  /** The middle of a row in pixels of the picture.
   * @param {number} i */
  middle(i) {
    const p = /** @type {Plan} */ (this.plan);
    return this.view.pixels(bendPoint(p, this.at, i, 0.5));
  }
}
