// The page: hands what the planner does to the plan, and shows what comes of it.
import { App } from './app.js';
import { cardShow } from './card.js';
import { coreOpen } from './core.js';
import { digsShow } from './digs.js';
import { byId, html } from './dom.js';
import { EXAMPLES } from './examples.js';
import { fileBytes } from './file.js';
import { Lesson, lessonListen, lessonShow } from './lesson.js';
import { List } from './list.js';
import { mendSetOff, mendShow } from './mend.js';
import { Picture } from './picture.js';
import { plansDistricts, plansOutlets, plansWhich } from './plans.js';
import { Pointer } from './pointer.js';
import { Price } from './price.js';
import { verdictShow } from './verdict.js';
import { setOffNone, whyOf } from './why.js';
import { count, junctionOf, money } from './words.js';
import { worksheetPrint } from './worksheet.js';

/** @typedef {import('./core.js').Core} Core */

const SMALL = '(max-width: 800px)';
/** @type {Record<string, string>} what keys do with the control key */
const KEY_ACTS = { z: 'undo', y: 'redo', 'shift z': 'redo', s: 'save', o: 'open' };

class Page {
  /** @param {Core} core */
  constructor(core) {
    this.app = new App(core);
    this.picture = new Picture(byId('net'), core);
    this.pointer = new Pointer(this.picture, {
      hover: (i) => this.app.hover(i),
      tap: (i, finger) => this.tap(i, finger),
    });
    this.list = new List(this.app, (i) => this.app.toggle(i));
    this.price = new Price(this.app);
    this.playing = 0;
    this.found = 0;
    this.last = ''; // the file that was opened last, or could not be
    this.acts = this.actions();
    this.app.listeners.push((told) => this.update(told));
    this.listen();
  }

  /** What a button does.
   * @returns {Record<string, () => void>} */
  actions() {
    const { app, picture } = this;
    return {
      open: () => byId('file').click(),
      save: () => this.save(),
      undo: () => app.undo(),
      redo: () => app.redo(),
      digs: () => digsShow(app),
      print: () => window.print(),
      theme: () => this.theme(),
      add: () => this.addStart(),
      plans: () => this.plans(),
      outlets: () => plansOutlets(app),
      districts: () => plansDistricts(app),
      class: () => this.classStart(),
      'lesson-next': () => app.lesson && app.lesson.next(),
      'lesson-leave': () => app.lesson && app.lesson.leave(),
      'lesson-paper': () => app.lesson && worksheetPrint(app.core, app.lesson.seed),
      fit: () => picture.fit(),
      in: () => picture.zoom(1.35),
      out: () => picture.zoom(1 / 1.35),
      swap: () => this.swap(app.judgement.exchange),
      other: () => this.other(),
      build: () => app.build(),
      mark: () => app.toggle(app.selected),
      exchange: () => this.exchange(),
      strike: () => this.fault(app.strike(app.selected)),
      close: () => app.select(-1),
      mend: () => app.mendStart(),
      'mend-first': () => app.mendTo(0),
      'mend-back': () => app.mendBy(-1),
      'mend-next': () => app.mendBy(1),
      'mend-last': () => app.mendTo(Infinity),
      'mend-play': () => this.play(),
      'mend-keep': () => app.mendEnd(true),
      'mend-leave': () => app.mendEnd(false),
    };
  }

  listen() {
    document.addEventListener('click', (/** @type {any} */ e) => {
      const button = e.target.closest('[data-act]');
      if (button && !button.disabled) this.acts[button.dataset.act]();
    });
    lessonListen(this.app);
    document.addEventListener('keydown', (e) => this.key(e));
    addEventListener('beforeunload', (e) => {
      if (!this.app.saved && !this.app.lesson) e.preventDefault();
    });
    document.addEventListener('dragover', (e) => e.preventDefault());
    document.addEventListener('drop', (/** @type {any} */ e) => {
      e.preventDefault();
      this.openFile(e.dataTransfer.files[0]);
    });
    byId('file').addEventListener('change', (/** @type {any} */ e) => {
      this.openFile(e.target.files[0]);
      e.target.value = '';
    });
    byId('examples').append(...Object.keys(EXAMPLES).map((name) => html('option', {}, name)));
    byId('examples').addEventListener('change', (/** @type {any} */ e) => {
      const text = EXAMPLES[e.target.value];
      if (text) this.open(fileBytes(text), e.target.value);
      e.target.value = '';
    });
    byId('which-file').addEventListener('change', async (/** @type {any} */ e) => {
      const [file] = e.target.files;
      if (file) plansWhich(this.app, new Uint8Array(await file.arrayBuffer()), file.name);
    });
    byId('find').addEventListener('input', () => this.find());
    byId('mend-range').addEventListener('input', () => {
      this.app.mendTo(Number(byId('mend-range').value));
    });
    byId('add-form').addEventListener('submit', (/** @type {any} */ e) => this.add(e));
  }

  /** @param {KeyboardEvent} e */
  key(e) {
    const target = /** @type {any} */ (e.target);
    if (e.key === 'Escape' && !target.closest('dialog')) this.leave();
    if (!(e.ctrlKey || e.metaKey) || e.altKey) return;
    if (target.type === 'number' || target.type === 'text') return;
    const key = e.key.toLowerCase();
    const act = KEY_ACTS[e.shiftKey ? `shift ${key}` : key];
    if (!act) return;
    e.preventDefault();
    this.acts[act]();
  }

  /** Leaves what is being looked at. */
  leave() {
    if (this.app.mending) this.app.mendEnd(false);
    else this.app.select(-1);
  }

  /** A click or tap on the picture.
   * @param {number} i @param {boolean} finger */
  tap(i, finger) {
    const { app } = this;
    if (app.mending) return;
    if (i < 0 || (finger && app.selected !== i)) {
      app.select(i);
      this.look();
      return;
    }
    app.hot = i;
    app.toggle(i);
  }

  /** On a small screen the card covers the lower part of the picture: what it tells of is moved
   * out from under it. */
  look() {
    const { app } = this;
    if (app.selected < 0 || !matchMedia(SMALL).matches) return;
    const { setOff } = whyOf(app, app.selected);
    const rows = [app.selected, ...setOff.under.map(([row]) => row)];
    const [net, card] = ['net', 'card'].map((id) => byId(id).getBoundingClientRect());
    this.picture.reveal(rows, Math.max(0, net.bottom - card.top));
  }

  plans() {
    if (this.app.mending || !this.app.judgement.drawn) return;
    byId('plans-said').replaceChildren();
    byId('plans').showModal();
  }

  classStart() {
    const { app } = this;
    if (app.lesson) return;
    app.lesson = new Lesson(app, 1);
    app.lesson.start(0, 1);
  }

  /** @param {{out: number, in: number} | null} exchange */
  swap(exchange) {
    if (!exchange) return;
    this.app.selected = -1;
    this.app.exchange(exchange.out, exchange.in);
  }

  other() {
    const { app } = this;
    const { other } = app.judgement;
    if (!other) return;
    app.selected = -1;
    app.exchange(other.out - 1, other.in - 1, 'another of the same price');
  }

  exchange() {
    const { app } = this;
    const { swap } = whyOf(app, app.selected);
    if (swap) app.exchange(swap[0], swap[1]);
  }

  addStart() {
    byId('add-form').reset();
    byId('add-wrong').textContent = '';
    byId('add').showModal();
  }

  /** A new trench from the dialog.
   * @param {any} e */
  add(e) {
    if (e.submitter && e.submitter.value === 'cancel') return;
    const [a, b, price] = ['add-a', 'add-b', 'add-price'].map((id) => byId(id).value);
    const wrong = this.app.add([a, b], Number(price));
    byId('add-wrong').textContent = wrong;
    if (wrong) e.preventDefault();
  }

  find() {
    this.found = junctionOf(this.app.plan, byId('find').value);
    if (this.found > 0 && this.app.judgement.drawn) this.picture.find(this.found);
    this.show();
  }

  play() {
    const { app } = this;
    if (this.playing) {
      clearInterval(this.playing);
      this.playing = 0;
    } else {
      this.playing = window.setInterval(() => {
        const { mending } = app;
        if (mending && mending.at < mending.steps.length) app.mendTo(mending.at + 1);
        else this.play();
      }, 700);
    }
    byId('mend-play').textContent = this.playing ? 'Pause' : 'Play';
  }

  theme() {
    const root = document.documentElement;
    const dark = matchMedia('(prefers-color-scheme: dark)').matches;
    const now = root.dataset.theme || (dark ? 'dark' : 'light');
    root.dataset.theme = now === 'dark' ? 'light' : 'dark';
  }

  /** @param {File | undefined} file */
  async openFile(file) {
    if (file) this.open(new Uint8Array(await file.arrayBuffer()), file.name);
  }

  /** @param {Uint8Array} bytes @param {string} name */
  open(bytes, name) {
    this.fault(this.app.open(bytes, name));
    this.last = name;
  }

  /** Says what is wrong, or nothing.
   * @param {string} wrong */
  fault(wrong) {
    byId('fault').hidden = wrong === '';
    byId('fault').textContent = wrong;
  }

  save() {
    const { app } = this;
    const stem = app.name.replace(/\.(stp|txt|csv|tsv|json|geojson)$/i, '');
    const name = stem.replace(/[\\/:]/g, ' ') || 'plan';
    const text = new Blob([fileBytes(app.text())], { type: 'text/plain' });
    const link = html('a', { href: URL.createObjectURL(text), download: `${name}.txt` });
    link.click();
    setTimeout(() => URL.revokeObjectURL(link.href), 1000);
    app.saved = true;
    this.show();
  }

  /** @param {import('./app.js').Told} told */
  update(told) {
    const { app } = this;
    const { drawn } = app.judgement;
    if (!app.mending && this.playing) this.play();
    byId('refused').hidden = drawn;
    byId('list').hidden = !drawn;
    document.body.classList.toggle('mending', Boolean(app.mending));
    if (told === 'open') {
      this.found = 0;
      if (drawn) {
        this.picture.open(app.shown, app.coordinates);
        this.list.open();
      }
    }
    lessonShow(app);
    if (told !== 'show') {
      verdictShow(app);
      mendShow(app);
      if (drawn) this.picture.marks(app.shown);
    }
    if (drawn && told === 'show') this.list.choose(app.selected);
    else if (drawn) this.list.update();
    this.show();
  }

  /** What follows from what is pointed at or chosen. */
  show() {
    const { app } = this;
    const { drawn } = app.judgement;
    const row = app.hot >= 0 && app.hot < app.plan.m ? app.hot : app.selected;
    const shown = drawn && !app.mending && !app.asked;
    const why = shown && row >= 0 ? whyOf(app, row) : null;
    cardShow(app, row, why);
    this.price.show(why && row === app.selected ? row : -1);
    if (drawn) this.picture.show(this.setOff(why));
    if (app.selected >= 0) this.list.scroll(app.selected);
    this.heading();
  }

  /** The name, and what can be undone. */
  heading() {
    const { app } = this;
    const { history } = app;
    for (const [id, label] of [['undo', history.undoLabel()], ['redo', history.redoLabel()]]) {
      byId(id).disabled = label === '' || Boolean(app.mending);
      byId(id).title = label;
    }
    byId('name').textContent = app.name + (app.saved ? '' : ' \u2022');
    document.title = `${app.name} \u2013 star`;
    const junctions = count(app.plan.n, 'junction', 'junctions');
    const trenches = count(app.plan.m, 'trench', 'trenches');
    const label = `${junctions}, ${trenches}. The table has every trench.`;
    byId('net').setAttribute('aria-label', label);
  }

  /** What the picture sets off.
   * @param {import('./why.js').Why | null} why */
  setOff(why) {
    const { app } = this;
    if (app.mending) return mendSetOff(app);
    if (app.lesson && app.asked) return app.lesson.setOff();
    const setOff = why ? why.setOff : setOffNone();
    if (app.judgement.rings) this.setOffRings(setOff);
    else if (!why) this.setOffExchange(setOff);
    if (this.found > 0) setOff.spots.set(this.found, 'found');
    return setOff;
  }

  /** Rings, and groups that stand apart.
   * @param {import('./why.js').SetOff} setOff */
  setOffRings(setOff) {
    const { rings, marks } = this.app.judgement;
    if (!rings || marks === 0) return;
    for (const i of rings.ringed) setOff.under.push([i, 'ring']);
    for (const v of rings.apart.flat()) setOff.spots.set(v, 'cut');
  }

  /** The exchange that the verdict names.
   * @param {import('./why.js').SetOff} setOff */
  setOffExchange(setOff) {
    const { exchange } = this.app.judgement;
    const { price } = this.app.plan;
    if (!exchange) return;
    setOff.under.push([exchange.in, 'comes']);
    setOff.over.push([exchange.out, 'gone'], [exchange.out, 'goes']);
    setOff.tags.set(exchange.out, `out ${money(price[exchange.out])}`);
    setOff.tags.set(exchange.in, `in ${money(price[exchange.in])}`);
  }
}

/** The bytes of an element whose text is base64.
 * @param {string} id */
function pageBytes(id) {
  return Uint8Array.from(atob(byId(id).textContent.trim()), (c) => c.charCodeAt(0));
}

/** Opens the core and the table inside the page, or an example where there is none. */
async function pageStart() {
  const packed = new Blob([pageBytes('core')]).stream();
  const unpack = new /** @type {any} */ (window).DecompressionStream('gzip');
  const module = packed.pipeThrough(unpack);
  const core = await coreOpen(await new Response(module).arrayBuffer());
  const page = new Page(core);
  byId('version').textContent = core.version();
  const { name: inside } = byId('table').dataset;
  if (inside) page.open(pageBytes('table'), inside);
  else {
    const [name, text] = Object.entries(EXAMPLES)[0];
    page.open(fileBytes(text), name);
  }
  Object.assign(window, { star: page });
}

pageStart().catch((fault) => {
  byId('fault').hidden = false;
  byId('fault').textContent = `This browser cannot run the core: ${fault.message}`;
});
