// What a planner does with a plan: open, mark, exchange, strike, add, price, mend, undo, save. It
// knows no document; what is to be shown is told to those who listen.
import { MIXED_NAMES, PASSED } from './core.js';
import { FileFault, fileAdd, fileRead, fileText, fileWrite } from './file.js';
import { History } from './history.js';
import { judge, judgeExchanged } from './judge.js';
import { openedFile } from './opened.js';
import { planCopy } from './plan.js';

/** @typedef {import('./plan.js').Plan} Plan */
/** @typedef {import('./core.js').Step} Step */
/** @typedef {import('./opened.js').Opened & {name: string}} State */
/** @typedef {'open' | 'change' | 'show'} Told */

export class App {
  /** @param {import('./core.js').Core} core */
  constructor(core) {
    this.core = core;
    this.selected = -1;
    this.hot = -1;
    this.saved = true;
    /** @type {{steps: Step[], at: number} | null} */
    this.mending = null;
    /** @type {import('./lesson.js').Lesson | null} */
    this.lesson = null;
    /** @type {((told: Told) => void)[]} */
    this.listeners = [];
    /** @type {History<State>} */
    this.history = new History({ ...fileRead(core, 'junctions 1\n'), name: '', coordinates: null });
    this.judgement = judge(core, this.plan);
  }

  get plan() {
    return this.history.now.plan;
  }

  get name() {
    return this.history.now.name;
  }

  get coordinates() {
    return this.history.now.coordinates;
  }

  /** The plan as it is shown: while it is mended, with the marks of the step. */
  get shown() {
    const { plan, mending } = this;
    if (!mending) return plan;
    const shown = planCopy(plan);
    for (const step of mending.steps.slice(0, mending.at)) {
      if (step.out > 0) shown.mark[step.out - 1] = 0;
      if (step.in > 0) shown.mark[step.in - 1] = 1;
    }
    return shown;
  }

  /** @param {Told} told */
  tell(told) {
    for (const listener of this.listeners) listener(told);
  }

  /** Opens a file; the plan before it can be had again by undoing.
   * @param {Uint8Array} bytes @param {string} name
   * @returns {string} what is wrong with it, or nothing */
  open(bytes, name) {
    /** @type {State} */
    let state;
    try {
      state = { ...openedFile(this.core, bytes, name), name };
    } catch (fault) {
      if (fault instanceof FileFault) return fault.message.replace(/^/gm, `${name}:`);
      throw fault;
    }
    if (this.lesson) this.lesson.leave();
    if (this.name === '') this.history = new History(state);
    else this.history.change(`open ${name}`, state);
    this.saved = true;
    this.show(this.history);
    return '';
  }

  /** Shows a plan with all that was done to it.
   * @param {History<State>} history */
  show(history) {
    this.history = history;
    this.mending = null;
    this.selected = -1;
    this.hot = -1;
    this.judgement = judge(this.core, this.plan);
    this.tell('open');
  }

  /** Whether the plan is a question, so that nothing is said of it and nothing changes it. */
  get asked() {
    return this.lesson !== null && this.lesson.open;
  }

  /** @param {string} label @param {(plan: Plan) => void} edit */
  change(label, edit) {
    const plan = planCopy(this.plan);
    edit(plan);
    this.keep(label, { ...this.history.now, plan });
  }

  /** @param {string} label @param {State} state */
  keep(label, state) {
    const { file } = this.history.now;
    this.history.change(label, state);
    this.moved(file);
  }

  /** After the state has moved.
   * @param {import('./file.js').File} file the one before: another one has other trenches */
  moved(file) {
    this.saved = false;
    this.judgement = judge(this.core, this.plan);
    if (this.selected >= this.plan.m) this.selected = -1;
    this.tell(file === this.history.now.file ? 'change' : 'open');
  }

  undo() {
    const { file } = this.history.now;
    if (!this.mending && this.history.undo() !== '') this.moved(file);
  }

  redo() {
    const { file } = this.history.now;
    if (!this.mending && this.history.redo() !== '') this.moved(file);
  }

  /** Turns the mark of a row.
   * @param {number} i */
  toggle(i) {
    const { plan } = this;
    if (this.mending || this.asked || plan.struck[i] || !this.judgement.drawn) return;
    const marked = plan.mark[i] === 1;
    this.selected = i;
    this.change(`${marked ? 'unmark' : 'mark'} trench ${i + 1}`, (p) => {
      p.mark[i] = marked ? 0 : 1;
    });
  }

  /** @param {number} i */
  select(i) {
    if (this.selected === i) return;
    this.selected = i;
    this.tell('show');
  }

  /** @param {number} i */
  hover(i) {
    if (this.hot === i) return;
    this.hot = i;
    this.tell('show');
  }

  /** @param {number} out @param {number} into @param {string} [label] */
  exchange(out, into, label = `exchange ${out + 1} for ${into + 1}`) {
    this.change(label, (p) => {
      p.mark = judgeExchanged(p, out, into);
    });
  }

  /** The marks of the least network that the core builds. */
  build() {
    const { kind, mark } = this.core.mst1(this.plan);
    if (kind !== PASSED) return;
    this.selected = -1;
    this.change('build cheapest', (p) => {
      p.mark = mark;
    });
  }

  /** Strikes a row, or takes it into use again.
   * @param {number} i
   * @returns {string} what is wrong with it, or nothing */
  strike(i) {
    const struck = this.plan.struck[i] === 1;
    const plan = planCopy(this.plan);
    plan.struck[i] = struck ? 0 : 1;
    const door = struck ? 'restore' : 'strike';
    const { kind, number } = this.core[door](this.plan, i + 1);
    if (kind !== PASSED) return this.core.refused(number, i + 1);
    const sound = struck ? this.sound(plan) : { kind, number };
    if (sound.kind !== PASSED) return this.core.refused(sound.number, i + 1);
    const label = `${door} trench ${i + 1}`;
    this.keep(label, { ...this.history.now, plan });
    return '';
  }

  /** Whether a plan with a row that came in is still a table that is taken.
   * @param {Plan} plan */
  sound(plan) {
    const { drawn, verdict } = judge(this.core, plan);
    return drawn ? { kind: PASSED, number: 0, out: 0 } : verdict;
  }

  /** A price as it is moved.
   * @param {number} i @param {number} price */
  previewPrice(i, price) {
    const plan = planCopy(this.plan);
    plan.price[i] = price;
    this.history.preview({ ...this.history.now, plan });
    this.moved(this.history.now.file);
  }

  /** @param {number} i */
  settlePrice(i) {
    this.history.settle(`price of trench ${i + 1}`);
    this.tell('change');
  }

  /** Adds a trench between two junctions, told by their numbers or names; a new name is that of a
   * new junction.
   * @param {string[]} words @param {number} price
   * @returns {string} what is wrong with it, or nothing */
  add(words, price) {
    const { now } = this.history;
    const ends = words.map((word) => this.end(word.trim()));
    if (ends.includes('')) return this.core.refused(MIXED_NAMES, 0);
    const answer = this.core.add(now.plan, price);
    if (answer.kind !== PASSED) return this.core.refused(answer.number, answer.out);
    /** @type {State} */
    let state;
    try {
      const { file } = fileRead(this.core, fileWrite(now.file, now.plan));
      const n = this.junctionsWith(ends);
      const text = fileAdd(file, now.plan, answer.amount, ends, price, n);
      state = { ...now, ...fileRead(this.core, text) };
    } catch (fault) {
      if (fault instanceof FileFault) return fault.message;
      throw fault;
    }
    if (now.file.names.length === 0) state.plan.names = now.plan.names; // they are shown alone
    const { kind, number, out } = this.sound(state.plan);
    if (kind !== PASSED) return this.core.refused(number, out);
    this.selected = answer.amount - 1;
    this.keep(`add trench ${answer.amount}`, state);
    return '';
  }

  /** A junction as the file has it: by its name, or by its number. Nothing for a number among names
   * that is no junction's, and for a name among numbers.
   * @param {string} word */
  end(word) {
    const { file, plan } = this.history.now;
    const named = file.names.length > 0;
    const known = plan.names.indexOf(word);
    if (known >= 0) return named ? file.names[known] : String(known + 1);
    if (/^[0-9]+$/.test(word)) return named ? file.names[Number(word) - 1] || '' : word;
    return named || plan.m === 0 ? fileText(new TextEncoder().encode(word)) : '';
  }

  /** How many junctions there are with those of a new trench.
   * @param {string[]} ends */
  junctionsWith(ends) {
    const { file, plan } = this.history.now;
    return ends.reduce((n, end) => {
      if (file.names.length > 0) return n + Number(!file.names.includes(end));
      return Math.max(n, Number(end) || 0);
    }, plan.n);
  }

  /** Marks the network that a door has built, or says why it has not.
   * @param {string} label @param {import('./core.js').Answer & {mark: Uint8Array}} answer */
  take(label, answer) {
    if (answer.kind !== PASSED) return this.core.refused(answer.number, answer.out);
    this.selected = -1;
    this.change(label, (p) => {
      p.mark = answer.mark;
    });
    return '';
  }

  /** @param {number} junction @param {number} count */
  outlets(junction, count) {
    const label = `${count} trenches at junction ${junction}`;
    return this.take(label, this.core.outlets(this.plan, junction, count));
  }

  /** @param {number[]} ends the last trench of each district */
  districts(ends) {
    return this.take(`districts ${ends.join(' ')}`, this.core.districts(this.plan, ends));
  }

  mendStart() {
    const { kind, steps } = this.core.mend(this.plan);
    if (kind !== PASSED) return;
    this.selected = -1;
    this.hot = -1;
    this.mending = { steps, at: 0 };
    this.tell('change');
  }

  /** @param {number} at */
  mendTo(at) {
    if (!this.mending) return;
    this.mending.at = Math.max(0, Math.min(this.mending.steps.length, at));
    this.tell('change');
  }

  /** @param {number} by */
  mendBy(by) {
    if (this.mending) this.mendTo(this.mending.at + by);
  }

  /** @param {boolean} keep whether the marks of the step stay */
  mendEnd(keep) {
    if (!this.mending) return;
    const { mark } = this.shown;
    const { at } = this.mending;
    this.mending = null;
    if (keep && at > 0) {
      this.change(`mend, ${at} steps`, (p) => {
        p.mark = mark;
      });
    } else this.tell('change');
  }

  /** The breaking price of a row, which is asked for once a plan.
   * @param {number} i */
  breaking(i) {
    const { breakings } = this.judgement;
    const known = breakings.get(i) || this.core.breaking(this.plan, i + 1);
    breakings.set(i, known);
    return known;
  }

  /** The dig list of the plan, by the core. */
  digs() {
    return this.core.digs(this.plan);
  }

  /** The table file as it stands. */
  text() {
    const { file, plan } = this.history.now;
    return fileWrite(file, plan);
  }
}
