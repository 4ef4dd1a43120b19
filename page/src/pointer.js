// Mouse, fingers and keys on the picture. Pointing is by the nearest trench, not by what lies on
// top. A finger's first tap looks, the second marks.

/** @typedef {import('./picture.js').Picture} Picture */
/** @typedef {{hover: (i: number) => void, tap: (i: number, finger: boolean) => void}} Heard */

const [MOUSE, FINGER] = [9, 24]; // how far a trench may be away, in pixels
const STILL = 5; // a pointer that moves less than this does not drag
/** @type {Record<string, number[]>} */
const ARROWS = { ArrowLeft: [60, 0], ArrowRight: [-60, 0], ArrowUp: [0, 60], ArrowDown: [0, -60] };

export class Pointer {
  /** @param {Picture} picture @param {Heard} heard */
  constructor(picture, heard) {
    this.picture = picture;
    this.heard = heard;
    /** @type {Map<number, number[]>} */
    this.down = new Map();
    this.moved = 0;
    const { root } = picture;
    root.addEventListener('wheel', (/** @type {any} */ e) => this.wheel(e), { passive: false });
    root.addEventListener('pointerdown', (/** @type {any} */ e) => this.pressed(e));
    root.addEventListener('pointermove', (/** @type {any} */ e) => this.move(e));
    root.addEventListener('pointerup', (/** @type {any} */ e) => this.released(e));
    root.addEventListener('pointercancel', (/** @type {any} */ e) => this.down.delete(e.pointerId));
    root.addEventListener('pointerleave', () => heard.hover(-1));
    root.addEventListener('keydown', (/** @type {any} */ e) => this.key(e));
  }

  /** @param {any} e */
  at(e) {
    const box = this.picture.root.getBoundingClientRect();
    return [e.clientX - box.left, e.clientY - box.top];
  }

  /** @param {any} e */
  wheel(e) {
    e.preventDefault();
    const [x, y] = this.at(e);
    this.picture.zoom(Math.exp(-e.deltaY * (e.deltaMode ? 0.05 : 0.0016)), x, y);
  }

  /** @param {any} e */
  pressed(e) {
    if (e.button > 0) return;
    this.picture.root.setPointerCapture(e.pointerId);
    if (this.down.size === 0) this.moved = 0;
    this.down.set(e.pointerId, this.at(e));
    if (this.down.size > 1) this.moved = STILL + 1;
  }

  /** @param {any} e */
  move(e) {
    const [x, y] = this.at(e);
    const was = this.down.get(e.pointerId);
    if (!was) {
      if (e.pointerType === 'mouse') this.heard.hover(this.picture.nearest(x, y, MOUSE));
      return;
    }
    const other = [...this.down].find(([id]) => id !== e.pointerId);
    if (other) this.pinch(was, [x, y], other[1]);
    else this.drag(was, [x, y]);
    if (other || this.moved > STILL) this.down.set(e.pointerId, [x, y]);
  }

  /** @param {number[]} was @param {number[]} now @param {number[]} other */
  pinch(was, now, other) {
    const before = Math.hypot(was[0] - other[0], was[1] - other[1]);
    const after = Math.hypot(now[0] - other[0], now[1] - other[1]);
    if (before > STILL) this.picture.zoom(after / before, other[0], other[1]);
  }

  /** @param {number[]} was @param {number[]} now */
  drag(was, now) {
    const [dx, dy] = [now[0] - was[0], now[1] - was[1]];
    this.moved = Math.max(this.moved, Math.hypot(dx, dy));
    if (this.moved > STILL) this.picture.pan(dx, dy);
  }

  /** @param {any} e */
  released(e) {
    const pressed = this.down.delete(e.pointerId);
    if (!pressed || this.moved > STILL || this.down.size > 0) return;
    const [x, y] = this.at(e);
    const finger = e.pointerType !== 'mouse';
    this.heard.tap(this.picture.nearest(x, y, finger ? FINGER : MOUSE), finger);
  }

  /** @param {any} e */
  key(e) {
    const by = ARROWS[e.key];
    if (by) this.picture.pan(by[0], by[1]);
    else if (e.key === '+' || e.key === '=') this.picture.zoom(1.3);
    else if (e.key === '-') this.picture.zoom(1 / 1.3);
    else if (e.key === '0') this.picture.fit();
    else return;
    e.preventDefault();
  }
}
