// Which labels are shown, and where: as many as fit, and none on a junction or on another one.

/** @typedef {{x0: number, x1: number, y0: number, y1: number}} Box */
/** What wants a label: how many places it may stand at, each by its number, its text and size. The
 * key tells it from all others.
 * @typedef {{key: string, text: string, look: string, size: number, places: number,
 * at: (k: number) => {x: number, y: number}}} Wanted */
/** @typedef {{key: string, x: number, y: number, text: string, look: string,
 * size: number}} Label */

const CELL = 32;

/** Boxes that are taken, found by the cells of a grid over a sheet; what lies outside it counts for
 * the cells at its edge. */
export class Taken {
  /** @param {{w: number, h: number}} sheet */
  constructor({ w, h }) {
    this.wide = Math.ceil(w / CELL) + 1;
    this.high = Math.ceil(h / CELL) + 1;
    /** @type {number[][]} four numbers a box */
    this.cells = Array.from({ length: this.wide * this.high }, () => []);
  }

  /** The cells that a box is in: the first column and row, the last column and row.
   * @param {number} x0 @param {number} x1 @param {number} y0 @param {number} y1 */
  span(x0, x1, y0, y1) {
    /** @param {number} c @param {number} most */
    const cell = (c, most) => Math.max(0, Math.min(most - 1, Math.floor(c / CELL)));
    const { wide, high } = this;
    return { a: cell(x0, wide), b: cell(y0, high), c: cell(x1, wide), d: cell(y1, high) };
  }

  /** @param {number} x0 @param {number} x1 @param {number} y0 @param {number} y1 */
  put(x0, x1, y0, y1) {
    const { a, b, c, d } = this.span(x0, x1, y0, y1);
    for (let y = b; y <= d; y++) {
      for (let x = a; x <= c; x++) this.cells[y * this.wide + x].push(x0, x1, y0, y1);
    }
  }

  /** @param {number} x0 @param {number} x1 @param {number} y0 @param {number} y1 */
  free(x0, x1, y0, y1) {
    const { a, b, c, d } = this.span(x0, x1, y0, y1);
    for (let y = b; y <= d; y++) {
      for (let x = a; x <= c; x++) {
        if (!cellFree(this.cells[y * this.wide + x], x0, x1, y0, y1)) return false;
      }
    }
    return true;
  }
}

/** Whether a box lies apart from those of a cell.
 * @param {number[]} cell
 * @param {number} x0 @param {number} x1 @param {number} y0 @param {number} y1 */
function cellFree(cell, x0, x1, y0, y1) {
  for (let k = 0; k < cell.length; k += 4) {
    if (cell[k] < x1 && x0 < cell[k + 1] && cell[k + 2] < y1 && y0 < cell[k + 3]) return false;
  }
  return true;
}

/** How much wider a text is than figures are, in figures: letters that are as wide as high.
 * @param {string} text */
function labelMore(text) {
  const letters = text.match(/[\u2e80-\uffff]/g);
  return letters ? 0.8 * letters.length : 0;
}

/** The width of a text.
 * @param {string} text @param {number} size */
export function labelWide(text, size) {
  return (text.length + labelMore(text)) * size * 0.6 + 4;
}

/** The height of a text.
 * @param {number} size */
export const labelHigh = (size) => size + 3;

/** Places labels, the first wanted first.
 * @param {Taken} taken @param {Wanted[]} wanted
 * @param {{w: number, h: number}} sheet @returns {Label[]} */
export function labelsPlace(taken, wanted, sheet) {
  /** @type {Label[]} */
  const shown = [];
  for (const { key, text, look, size, places, at } of wanted) {
    const [wide, high] = [labelWide(text, size) / 2, labelHigh(size) / 2];
    for (let k = 0; k < places; k++) {
      const { x, y } = at(k);
      if (x < wide || y < high || x + wide > sheet.w || y + high > sheet.h) continue;
      if (!taken.free(x - wide, x + wide, y - high, y + high)) continue;
      taken.put(x - wide, x + wide, y - high, y + high);
      shown.push({ key, x, y, text, look, size });
      break;
    }
  }
  return shown;
}

/** Shows labels as texts of an SVG: what says the same as before is not touched. */
export class Labels {
  /** @param {any} group @param {() => any} make a new text */
  constructor(group, make) {
    this.group = group;
    this.make = make;
    /** @type {Map<string, {text: any, label: Label}>} */
    this.shown = new Map();
  }

  /** @param {Label[]} labels */
  show(labels) {
    const before = this.shown;
    this.shown = new Map();
    for (const label of labels) {
      const old = before.get(label.key);
      const text = old ? old.text : this.make();
      if (!old) this.group.append(text);
      this.write(text, label, old ? old.label : null);
      this.shown.set(label.key, { text, label });
      before.delete(label.key);
    }
    for (const { text } of before.values()) text.remove();
  }

  /** @param {any} text @param {Label} label @param {Label | null} old */
  write(text, label, old) {
    if (!old || old.x !== label.x) text.setAttribute('x', label.x.toFixed(1));
    if (!old || old.y !== label.y || old.size !== label.size) {
      text.setAttribute('y', (label.y + label.size * 0.35).toFixed(1));
    }
    if (!old || old.size !== label.size) text.setAttribute('font-size', label.size.toFixed(1));
    if (!old || old.look !== label.look) text.setAttribute('class', label.look);
    if (!old || old.text !== label.text) text.textContent = label.text;
  }
}
