// A class: exercises in the order of a lesson, answers hidden until one is given, a score. The plan
// that was open is kept meanwhile.
import { bold, button, byId, coreSays, html, pageSays, svg } from './dom.js';
import { KINDS, exerciseAnswer, exerciseFits, exerciseMake } from './exercises.js';
import { fileOfPlan, fileRead } from './file.js';
import { History } from './history.js';
import { setOffNone } from './why.js';
import { money } from './words.js';

/** @typedef {import('./app.js').App} App */
/** @typedef {import('./exercises.js').Exercise} Exercise */

const MOST_SEEDS = 1000000;

export class Lesson {
  /** @param {App} app @param {number} seed */
  constructor(app, seed) {
    this.app = app;
    this.seed = seed;
    this.kind = 0;
    this.given = '';
    this.scores = KINDS.map(() => ({ right: 0, of: 0 }));
    this.kept = { history: app.history, saved: app.saved };
    this.own = false; // whether exercises are made of the table that was open
    this.exercise = exerciseMake(app.core, 0, seed);
    this.answer = exerciseAnswer(app.core, this.exercise);
  }

  /** Whether an answer is still to be given. */
  get open() {
    return this.given === '';
  }

  /** Whether the picture is the answer, or there is none. */
  get unseen() {
    return this.kind === 3 || (this.kind === 0 && this.open);
  }

  /** @param {number} kind @param {number} seed */
  start(kind, seed) {
    const { app } = this;
    this.kind = kind;
    this.seed = seed;
    this.given = '';
    this.exercise = exerciseMake(app.core, kind, seed, this.own ? this.table() : null);
    this.answer = exerciseAnswer(app.core, this.exercise);
    app.saved = true;
    const name = `Exercise ${seed}`;
    const { plan } = this.exercise;
    const { file } = fileRead(app.core, fileOfPlan(app.core, plan, []));
    const state = { file, plan, name, coordinates: null };
    app.show(new History(state));
  }

  /** The table that was open, where exercises can be made of it. */
  table() {
    const { plan } = this.kept.history.now;
    return exerciseFits(this.app.core, plan) ? plan : null;
  }

  /** The next kind, and after the last one the first with another seed. */
  next() {
    const kind = (this.kind + 1) % KINDS.length;
    this.start(kind, kind === 0 ? this.seed + 1 : this.seed);
  }

  /** @param {string} key */
  give(key) {
    if (!this.open) return;
    this.given = key;
    const score = this.scores[this.kind];
    score.of++;
    if (key === this.answer.right) score.right++;
    this.app.selected = this.exercise.row;
    this.app.tell('change');
  }

  leave() {
    const { app, kept } = this;
    app.lesson = null;
    app.saved = kept.saved;
    app.show(kept.history);
  }

  /** What the picture sets off before an answer is given. */
  setOff() {
    const { plan, row, second } = this.exercise;
    const setOff = setOffNone();
    if (row >= 0) {
      setOff.over.push([row, 'chosen']);
      setOff.tags.set(row, `offered ${money(plan.price[row])}`);
    }
    if (!second) return setOff;
    for (let i = 0; i < plan.m; i++) {
      if (second[i] > plan.mark[i]) {
        setOff.under.push([i, 'comes']);
        setOff.tags.set(i, `theirs ${money(plan.price[i])}`);
      } else if (second[i] < plan.mark[i]) {
        setOff.over.push([i, 'gone'], [i, 'goes']);
        setOff.tags.set(i, `yours ${money(plan.price[i])}`);
      }
    }
    return setOff;
  }
}

/** The tabs of the kinds, with the score of each.
 * @param {Lesson} lesson */
function lessonTabs(lesson) {
  return KINDS.map((name, kind) => {
    const { right, of } = lesson.scores[kind];
    const words = `${kind + 1} ${name}${of > 0 ? ` ${right}/${of}` : ''}`;
    const pressed = String(kind === lesson.kind);
    return html('button', { type: 'button', 'data-kind': kind, 'aria-pressed': pressed }, words);
  });
}

/** What is said of an answer.
 * @param {Lesson} lesson */
function lessonSaid(lesson) {
  if (lesson.open) return [];
  const { right, core, page } = lesson.answer;
  const choice = lesson.exercise.choices.find(({ key }) => key === right);
  const words = choice ? choice.words : right;
  const verdict = lesson.given === right
    ? bold('\u2713 Right.', 'in')
    : bold(`\u2717 Not so: ${words.toLowerCase()}.`, 'out');
  return [html('p', {}, verdict), coreSays(core), ...(page ? [pageSays(page)] : [])];
}

/** The codes of a byte; after the answer, those of junctions, and the one that is none.
 * @param {boolean} open */
function lessonCodes(open) {
  const codes = Array.from({ length: 256 }, (_, code) => {
    const [x, y] = [2 + (code % 16) * 10, 2 + (code >> 4) * 10];
    const look = { class: open || code === 0 ? '' : 'used', x, y, width: 9, height: 9 };
    const number = svg('text', { x: x + 4.5, y: y + 6 }, String(code));
    return svg('g', {}, svg('rect', look), ...(open ? [] : [number]));
  });
  const cross = open ? [] : [svg('path', { d: 'M2 2l9 9m0 -9l-9 9' })];
  byId('codes').replaceChildren(...codes, ...cross);
}

/** @param {App} app */
export function lessonShow(app) {
  const { lesson } = app;
  byId('lesson').hidden = !lesson;
  document.body.classList.toggle('class', Boolean(lesson));
  document.body.classList.toggle('asked', Boolean(lesson && lesson.open));
  document.body.classList.toggle('unseen-picture', Boolean(lesson && lesson.unseen));
  document.body.classList.toggle('no-table', Boolean(lesson && lesson.kind === 3));
  if (!lesson) return;
  const { ask, choices } = lesson.exercise;
  if (lesson.kind === 3) lessonCodes(lesson.open);
  byId('lesson-tabs').replaceChildren(...lessonTabs(lesson));
  byId('lesson-ask').textContent = ask;
  byId('lesson-choices').replaceChildren(
    ...choices.map(({ key, words }) => {
      const pressed = String(key === lesson.given);
      const given = { type: 'button', 'data-answer': key, 'aria-pressed': pressed };
      return html('button', { ...given, disabled: !lesson.open }, words);
    }),
  );
  byId('lesson-said').replaceChildren(...lessonSaid(lesson));
  byId('lesson-acts').replaceChildren(
    ...(lesson.open ? [] : [button('lesson-next', 'Next exercise', true)]),
    button('lesson-paper', 'Worksheet'),
    button('lesson-leave', 'Leave the class'),
  );
  byId('lesson-seed').value = lesson.seed;
  byId('lesson-own').checked = lesson.own;
  byId('lesson-own').disabled = !lesson.table();
}

/** @param {App} app */
export function lessonListen(app) {
  byId('lesson').addEventListener('click', (/** @type {any} */ e) => {
    const { lesson } = app;
    const asked = e.target.closest('[data-kind], [data-answer]');
    if (!lesson || !asked) return;
    if (asked.dataset.kind) lesson.start(Number(asked.dataset.kind), lesson.seed);
    else lesson.give(asked.dataset.answer);
  });
  byId('lesson-seed').addEventListener('change', (/** @type {any} */ e) => {
    const seed = Math.max(1, Math.min(MOST_SEEDS, Math.trunc(Number(e.target.value)) || 1));
    if (app.lesson) app.lesson.start(app.lesson.kind, seed);
  });
  byId('lesson-own').addEventListener('change', (/** @type {any} */ e) => {
    const { lesson } = app;
    if (!lesson) return;
    lesson.own = e.target.checked;
    lesson.start(lesson.kind, lesson.seed);
  });
}
