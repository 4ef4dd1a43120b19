// What was done, so that it can be undone and done again. States are never changed once kept.

const MOST_STATES = 500;

/** @template State */
export class History {
  /** @param {State} state */
  constructor(state) {
    this.now = state;
    /** @type {State | null} the state before one that is shown and not yet kept */
    this.held = null;
    /** @type {{label: string, state: State}[]} */
    this.back = [];
    /** @type {{label: string, state: State}[]} */
    this.ahead = [];
  }

  /** @param {string} label what undo says @param {State} state */
  change(label, state) {
    this.back.push({ label, state: this.now });
    if (this.back.length > MOST_STATES) this.back.shift();
    this.ahead = [];
    this.now = state;
  }

  /** Shows a state before it is kept, as a price that is being moved.
   * @param {State} state */
  preview(state) {
    if (this.held === null) this.held = this.now;
    this.now = state;
  }

  /** Keeps the state that is shown.
   * @param {string} label */
  settle(label) {
    if (this.held === null) return;
    const state = this.now;
    this.now = this.held;
    this.held = null;
    this.change(label, state);
  }

  undo() {
    return this.step(this.back, this.ahead);
  }

  redo() {
    return this.step(this.ahead, this.back);
  }

  /** Takes the last state of one list, and puts the present one into the other.
   * @param {{label: string, state: State}[]} from @param {{label: string, state: State}[]} to */
  step(from, to) {
    const last = from.pop();
    if (!last) return '';
    to.push({ label: last.label, state: this.now });
    this.now = last.state;
    return last.label;
  }

  undoLabel() {
    return this.back.length > 0 ? this.back[this.back.length - 1].label : '';
  }

  redoLabel() {
    return this.ahead.length > 0 ? this.ahead[this.ahead.length - 1].label : '';
  }
}
