// The part of the picture that is seen: a scale and a shift from places to pixels.

/** @typedef {import('./layout.js').Places} Places */
/** @typedef {{x0: number, x1: number, y0: number, y1: number}} Box */

const LEAST_SCALE = 2;
const MOST_SCALE = 400;

/** The box around some junctions.
 * @param {Places} at @param {Iterable<number>} junctions */
export function viewBox(at, junctions) {
  const box = { x0: Infinity, x1: -Infinity, y0: Infinity, y1: -Infinity };
  for (const v of junctions) {
    box.x0 = Math.min(box.x0, at.x[v - 1]);
    box.x1 = Math.max(box.x1, at.x[v - 1]);
    box.y0 = Math.min(box.y0, at.y[v - 1]);
    box.y1 = Math.max(box.y1, at.y[v - 1]);
  }
  return box;
}

export class View {
  constructor() {
    this.k = 1;
    this.x = 0;
    this.y = 0;
    this.w = 1;
    this.h = 1;
    this.touched = false;
  }

  /** Pixels of a place.
   * @param {{x: number, y: number}} q */
  pixels(q) {
    return { x: this.k * q.x + this.x, y: this.k * q.y + this.y };
  }

  /** The place at pixels.
   * @param {number} x @param {number} y */
  place(x, y) {
    return { x: (x - this.x) / this.k, y: (y - this.y) / this.k };
  }

  /** The whole of a box.
   * @param {Box} box @param {number} most the largest scale */
  fit(box, most) {
    const pad = this.w < 500 ? 24 : 34;
    const buttons = this.w < 500 ? 0 : 26;
    const [wide, high] = [Math.max(box.x1 - box.x0, 0.01), Math.max(box.y1 - box.y0, 0.01)];
    const room = Math.min((this.w - 2 * pad - buttons) / wide, (this.h - 2 * pad) / high, most);
    this.k = Math.max(LEAST_SCALE, room);
    this.x = (this.w - buttons) / 2 - (this.k * (box.x0 + box.x1)) / 2;
    this.y = this.h / 2 - (this.k * (box.y0 + box.y1)) / 2;
    this.touched = false;
  }

  /** @param {number} by @param {number} x @param {number} y the pixels that stay where they are */
  zoom(by, x, y) {
    const k = Math.min(MOST_SCALE, Math.max(LEAST_SCALE, this.k * by));
    this.x = x - (k / this.k) * (x - this.x);
    this.y = y - (k / this.k) * (y - this.y);
    this.k = k;
    this.touched = true;
  }

  /** @param {number} dx @param {number} dy */
  pan(dx, dy) {
    this.x += dx;
    this.y += dy;
    this.touched = true;
  }

  /** Shifts the view so that a box is seen above what covers `below` pixels of it, at a scale
   * that can be read where it fits.
   * @param {Box} box @param {number} below @param {number} readable */
  reveal(box, below, readable) {
    const pad = 44;
    const [wide, high] = [Math.max(box.x1 - box.x0, 0.01), Math.max(box.y1 - box.y0, 0.01)];
    const [w, h] = [this.w - 2 * pad, Math.max(80, this.h - below - 2 * pad)];
    const room = Math.min(w / wide, h / high);
    const middle = this.pixels({ x: (box.x0 + box.x1) / 2, y: (box.y0 + box.y1) / 2 });
    const scale = Math.min(room, Math.max(this.k, readable));
    this.zoom(scale / this.k, middle.x, middle.y);
    const from = this.pixels({ x: box.x0, y: box.y0 });
    const to = this.pixels({ x: box.x1, y: box.y1 });
    const dx = Math.max(0, pad - from.x) + Math.min(0, pad + w - to.x);
    const dy = Math.max(0, pad - from.y) + Math.min(0, pad + h - to.y);
    if (dx !== 0 || dy !== 0) this.pan(dx, dy);
  }
}
