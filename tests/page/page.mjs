// The page in a real browser, held to the console on the same files.
// usage: node page.mjs CHROMIUM STAR STAR.html [GROUP.. | -GROUP..]   these groups, or all but
// these. Ends in one line 'N passed, M failed'.
// CALLS in the environment names the calls of backends.c for the group doors, and TABLES the table
// of the group labels, where not all are wanted. The groups of paper.mjs need poppler-utils.
import { spawnSync } from 'node:child_process';
import fs from 'node:fs';
import os from 'node:os';
import path from 'node:path';
import { fileURLToPath } from 'node:url';
import { browserMake } from './browser.mjs';
import { buttonsGroups } from './buttons.mjs';
import { clicksGroups } from './clicks.mjs';
import { ROUNDING, apart, drawnBy } from './drawn.mjs';
import { insideGroups } from './inside.mjs';
import { kindsGroups } from './kinds.mjs';
import { movesGroups } from './moves.mjs';
import { overlaps } from './overlaps.mjs';
import { paperGroups, paperReadable } from './paper.mjs';
import { reachGroups } from './reach.mjs';
import { tablesFor } from './tables.mjs';

const [, , program, console_, html, ...asked] = process.argv;
const here = path.dirname(fileURLToPath(import.meta.url));
const examples = path.join(here, '../../console/examples');
const folder = fs.mkdtempSync(path.join(os.tmpdir(), 'star-page-test-'));
const b = browserMake(program);
let [passed, failed] = [0, 0];
/** @type {Set<string>} the buttons that were pressed, by what they do */
const pressed = new Set();

/** @param {string} what @param {boolean} holds */
function check(what, holds) {
  if (holds) passed++;
  else failed++;
  if (!holds) console.log('page:', what, 'failed');
}

/** @param {string[]} words */
function star(...words) {
  return spawnSync(console_, words, { encoding: 'latin1' }).stdout;
}

/** @param {string} id */
const textOf = (id) => b.value(`document.getElementById(${JSON.stringify(id)}).innerText`);
/** @param {string} name */
const example = (name) => path.join(examples, name);

/** @param {string} file */
const bytesOf = (file) => fs.readFileSync(file, 'latin1');

/** Chooses a file, as the button Open does.
 * @param {string} file */
async function choose(file) {
  await b.value("star.last = ''");
  const { root } = await b.send('DOM.getDocument');
  const found = await b.send('DOM.querySelector', { nodeId: root.nodeId, selector: '#file' });
  await b.send('DOM.setFileInputFiles', { files: [file], nodeId: found.nodeId });
  const opened = `star.last === ${JSON.stringify(path.basename(file))}`;
  for (let k = 0; k < 400 && !(await b.value(opened)); k++) await b.frame();
  await b.frame();
}

/** Clicks a button by what it does.
 * @param {string} act */
async function press(act) {
  pressed.add(act);
  const box = await b.value(`(() => {
    const all = [...document.querySelectorAll('[data-act="${act}"]')];
    const button = all.find((x) => x.offsetParent);
    button.scrollIntoView({ block: 'nearest' });
    const r = button.getBoundingClientRect();
    return { x: r.left + r.width / 2, y: r.top + r.height / 2 };
  })()`);
  await b.click(box.x, box.y);
  await b.frame();
}

/** The pixels of the middle of a trench, counted from 1.
 * @param {number} row */
const middle = (row) => b.value(`(() => {
  const q = star.picture.middle(${row - 1});
  const r = star.picture.root.getBoundingClientRect();
  return { x: r.left + q.x, y: r.top + q.y };
})()`);

/** The lines and junctions as they are drawn, and the view. */
const drawn = () => b.value(`JSON.stringify([
  star.picture.lines.map((line) => line.getAttribute('d')),
  star.picture.discs.map((disc) => disc.firstChild.getAttribute('d')),
  star.picture.world.getAttribute('transform')])`);

/** The file that the button Save writes. */
async function saved() {
  fs.rmSync(folder, { recursive: true });
  fs.mkdirSync(folder);
  await press('save');
  for (let k = 0; k < 100; k++) {
    const names = fs.readdirSync(folder).filter((name) => name.endsWith('.txt'));
    if (names.length > 0) return fs.readFileSync(path.join(folder, names[0]), 'latin1');
    await b.frame();
  }
  return '';
}

/** Whether the list's checkboxes and the picture have the plan's marks. */
const shows = () => b.value(`(() => {
  const { plan } = star.app;
  return star.list.rows.every((row, i) => {
    const on = plan.mark[i] === 1 && !plan.struck[i];
    const line = star.picture.lines[i].parentNode.getAttribute('class') === 'plan';
    return row.cells[0].firstChild.checked === on && line === on;
  });
})()`);

const tools = {
  b, bytesOf, check, choose, example, examples, folder, html, middle, press, saved, shows, star,
  textOf,
};
/** @typedef {typeof tools} Tools */

/** @type {Record<string, () => Promise<void>>} */
const OWN = {
  async quiet() {
    check('a page that starts', (await textOf('head')).includes('1 can be saved'));
    check('no fault', await b.value("document.getElementById('fault').hidden"));
    check('the version', (await textOf('version')) === star('--version').trim().split(' ').pop());
  },

  async marks() {
    await choose(example('yard.txt'));
    const before = await drawn();
    check('the yard passes', (await textOf('verdict')).includes('No network is cheaper than 12.'));
    const other = 'Another network costs the same';
    check('the other network', (await textOf('verdict')).includes(other));
    const one = await middle(1);
    await b.click(one.x, one.y);
    await b.frame();
    check('a click marks', await b.value('star.app.plan.mark[0] === 1'));
    check('the verdict follows', (await textOf('head')).includes('No network'));
    const words = await textOf('verdict');
    check('the total follows', /^17 marked/m.test(words) && words.includes('4 of 3 marks'));
    check('the least total stays', words.includes('12 least total'));
    check('the ring is told', /A ring: trenches/.test(words));
    check('list and picture follow', await shows());
    const four = await middle(4);
    await b.click(four.x, four.y);
    await b.frame();
    const now = await textOf('verdict');
    check('a saving', now.includes('1 can be saved') && now.includes('13 total'));
    check('what goes and what comes',
      /Take out trench 1 \(1–2, 5\), put in trench 4 \(1–4, 4\): this saves 1/.test(now));
    check('a standing', (await textOf('list-rows')).includes('saves 1 for 1'));
    check('nothing moves', before === (await drawn()));
    await press('swap');
    check('the exchange', (await textOf('head')).includes('Cheapest network'));
    check('the file is as it was', (await saved()) === bytesOf(example('yard.txt')));
  },

  async picture() {
    for (const name of ['yard.txt', 'grant.txt', 'city.txt', 'street.stp']) {
      await choose(example(name));
      const discs = await b.value(`star.picture.discs.map((disc) =>
        disc.firstChild.getAttribute('d').match(/-?[\\d.]+(e-?\\d+)?/g).slice(0, 2).map(Number))`);
      const { junctions } = drawnBy(console_, example(name));
      const same = discs.length === junctions.length && apart(junctions, discs) < ROUNDING;
      check(`the console's picture of ${name}`, same);
    }
  },

  async card() {
    await choose(example('yard.txt'));
    await b.value('star.app.select(4)');
    await b.frame();
    const words = await textOf('card');
    check('the dearest decides', words.includes('6 > 5') && words.includes('stays out'));
    check('the sum does not count', /Its sum, 9, does not count/.test(words));
    check('bars', (await b.value("document.querySelectorAll('#card .bars rect').length")) === 2);
    check('breaking price', words.includes('Its breaking price is 5'));
    const core = await b.value(
      "[...document.querySelectorAll('#card .core')].map((x) => x.innerText).join('|')");
    check('the exchange by the core', core.includes('With trench 5 for trench 3 the total is 13.'));
    await b.value('star.app.select(2)');
    await b.frame();
    const own = await textOf('card');
    const parts = ['The cheapest that could take its place is trench ', '5 = 5.', 'cut off'];
    check('a trench of the plan', parts.every((part) => own.includes(part)));
  },

  async changes() {
    const file = example('city.txt');
    await choose(file);
    await b.value('star.app.select(4)');
    await b.frame();
    await press('strike');
    check('strike', (await saved()) === star('strike', file, '5'));
    check('struck in the list', (await textOf('list-rows')).includes('struck'));
    await press('mend');
    await press('mend-last');
    await press('mend-keep');
    const struck = path.join(folder, 'struck.txt');
    fs.writeFileSync(struck, star('strike', file, '5'));
    const mended = star('mend', struck);
    check('mend', (await saved()) === mended);
    check('mended is cheapest', (await textOf('head')).includes('Cheapest network'));
    await press('undo');
    await press('undo');
    check('undo of both', (await saved()) === bytesOf(file));
    await press('redo');
    await press('redo');
    check('redo of both', (await saved()) === mended);
    await press('undo');
    await press('undo');
    await b.value('star.app.select(4)');
    await b.frame();
    await press('strike');
    await press('strike');
    check('restore', (await saved()) === bytesOf(file));
  },

  async opens() {
    await choose(example('yard-dear.txt'));
    await press('swap');
    const swapped = await b.value('star.app.text()');
    await choose(example('old.txt'));
    check('another file', (await textOf('name')) === 'old.txt');
    await press('undo');
    check('undo of opening', (await b.value('star.app.text()')) === swapped &&
      (await textOf('name')).startsWith('yard-dear.txt') && (await shows()));
    await press('redo');
    check('redo of opening', (await textOf('head')).includes('No network') && (await shows()));
    await b.value(`(() => {
      const dropped = new DataTransfer();
      dropped.items.add(new File(['1 2 7 1\\n'], 'dropped.txt'));
      document.dispatchEvent(new DragEvent('drop', { dataTransfer: dropped }));
    })()`);
    for (let k = 0; k < 50 && (await textOf('name')) !== 'dropped.txt'; k++) await b.frame();
    check('a file that is dropped', (await textOf('totals')).startsWith('7 total'));
    const wide = path.join(folder, 'wide.txt');
    fs.writeFileSync(wide, '\xff\xfe1\x002\x00', 'latin1');
    await choose(wide);
    check('UTF-16', (await textOf('fault')) ===
      spawnSync(console_, ['check', wide], { encoding: 'latin1' }).stderr.trim()
        .replace(`${folder}/`, ''));
    await choose(example('yard.txt'));
  },

  async adds() {
    const file = example('yard.txt');
    await choose(file);
    await press('add');
    await b.value(`for (const [id, v] of [['add-a', 2], ['add-b', 4], ['add-price', 1]])
      document.getElementById(id).value = v;
      document.querySelector('#add button.go').click()`);
    await b.frame();
    check('add', (await saved()) === star('add', file, '2', '4', '1'));
    check('its saving', (await textOf('head')).includes('4 can be saved'));
    await press('add');
    await b.value(`for (const [id, v] of [['add-a', 2], ['add-b', 4], ['add-price', 1]])
      document.getElementById(id).value = v;
      document.querySelector('#add button.go').click()`);
    await b.frame();
    const wrong = await textOf('add-wrong');
    check('a repeat is refused', wrong.includes('a row joins the same two junctions'));
    await b.value("document.getElementById('add').close()");
    await press('undo');
    check('undo of add', (await saved()) === bytesOf(file));
  },

  async plans() {
    const [mine, theirs] = [example('office-a.txt'), example('office-b.txt')];
    await choose(mine);
    await press('plans');
    const { root } = await b.send('DOM.getDocument');
    const asked = { nodeId: root.nodeId, selector: '#which-file' };
    const { nodeId } = await b.send('DOM.querySelector', asked);
    await b.send('DOM.setFileInputFiles', { files: [theirs], nodeId });
    for (let k = 0; k < 50 && (await textOf('plans-said')) === ''; k++) await b.frame();
    const said = await textOf('plans-said');
    check('which', said.includes('office-b.txt stands: it costs 17') && said.includes('costs 19'));
    await b.value("document.getElementById('plans').close()");
    await choose(example('yard.txt'));
    await press('plans');
    await b.value("document.getElementById('outlets-count').value = 3");
    await press('outlets');
    check('outlets', (await textOf('plans-said')).includes('the total is 15'));
    await b.value("document.getElementById('districts-ends').value = '2 5'");
    await press('districts');
    check('districts', (await textOf('plans-said')).includes('the total is 12'));
    await b.value("document.getElementById('plans').close()");
    const districts = star('districts', '--table', example('yard.txt'), '2', '5');
    check('its file', (await saved()) === districts);
    await press('undo');
    const outlets = star('outlets', '--table', example('yard.txt'), '1', '3');
    check('undo of districts', (await saved()) === outlets);
  },

  async prices() {
    await choose(example('yard.txt'));
    await b.value(`star.app.select(4);
      const box = document.getElementById('price-number');
      box.value = '2'; box.dispatchEvent(new Event('change'))`);
    await b.frame();
    const quoted = star('quote', example('yard.txt'), '5', '2');
    const least = await b.value('star.app.judgement.least.amount');
    check('the quote', quoted.includes(`and ${least} at the new price`));
    check('what it saves', (await textOf('head')).includes('3 can be saved'));
    check('the price in the file', (await saved()).includes('1 3 2 0'));
    await press('undo');
    check('undo of a price', (await saved()) === bytesOf(example('yard.txt')));
  },

  async lists() {
    for (const name of ['yard.txt', 'old.txt', 'yard-dear.txt']) {
      await choose(example(name));
      await press('digs');
      const rows = await b.value(`[...document.querySelectorAll('#digs-rows tr')].map((row) =>
        [...row.cells].slice(0, 4).map((cell) => cell.innerText).join(' ').trim()).join('\\n')`);
      const told = star('digs', '--plan', example(name)).trim();
      check(`the dig list of ${name}`, rows === (told.startsWith('Refused') ? '' : told));
      await b.value("document.getElementById('digs').close()");
    }
    await choose(example('street.stp'));
    check('an STP text', (await b.value('star.app.plan.m')) > 0);
    check('as a table', (await saved()) === star('table', example('street.stp')));
    const bad = path.join(folder, 'bad.txt');
    fs.writeFileSync(bad, '1 2 x 1\n');
    await choose(bad);
    check('a fault', (await textOf('fault')).startsWith('bad.txt:1: a price is not a whole'));
    await choose(example('old.txt'));
    check('groups', (await textOf('verdict')).includes('Groups that stand apart: 1, 2, 3; 4'));
    await b.value("document.getElementById('fault').hidden = true");
  },

  async labels() {
    const only = process.env.TABLES;
    for (const [name, text] of Object.entries(tablesFor(examples))) {
      if (only && only !== name) continue;
      const bytes = JSON.stringify([...Buffer.from(text)]);
      await b.value(`star.open(Uint8Array.from(${bytes}), 'table')`);
      await b.frame();
      for (const zoom of [1, 1.8, 1.8]) {
        await b.value(`star.picture.zoom(${zoom}); star.app.select(${zoom} > 1
          ? star.picture.nearest(star.picture.view.w / 2, star.picture.view.h / 2, 300) : -1)`);
        await b.frame();
        const { bad, shown, tag } = await b.value(`(${overlaps})()`);
        check(`labels of ${name}: ${bad.slice(0, 3).join(', ')}`, bad.length === 0 && shown > 0);
        check(`the price of the chosen trench of ${name}`, zoom === 1 || tag);
      }
    }
  },

  async lessons() {
    await choose(example('yard-dear.txt'));
    await press('swap');
    const kept = await b.value('star.app.text()');
    await press('class');
    const hidden = "!document.getElementById('verdict').offsetParent";
    check('no verdict before the answer', await b.value(hidden));
    const seen = "getComputedStyle(document.querySelector('.hidden-picture')).display";
    check('no picture before the answer', (await b.value(seen)) === 'grid');
    check('no standing', (await textOf('list-rows')).search(/saves|same|dearer|ring|joins/) < 0);
    const before = await b.value('star.app.plan.mark.join()');
    await b.value("document.querySelector('#list-rows input').click()");
    const after = await b.value('star.app.plan.mark.join()');
    check('no mark turns', before === after && (await shows()));
    for (const kind of [0, 1, 2, 3]) {
      const right = await b.value('star.app.lesson.answer.right');
      await b.value(`document.querySelector('[data-answer="${right}"]').click()`);
      await b.frame();
      check(`exercise ${kind} is right`, (await textOf('lesson-said')).includes('Right.'));
      check('a score', (await textOf('lesson-tabs')).includes(`${kind + 1} `) &&
        (await textOf('lesson-tabs')).includes('1/1'));
      check('mend and build are out of reach', await b.value(
        "!document.getElementById('acts').offsetParent"));
      if (kind < 3) await press('lesson-next');
    }
    await b.value('star.app.lesson.start(1, 9)');
    const wrong = await b.value(`star.app.lesson.exercise.choices.find(
      (choice) => choice.key !== star.app.lesson.answer.right).key`);
    await b.value(`document.querySelector('[data-answer="${wrong}"]').click()`);
    await b.frame();
    check('a wrong answer', (await textOf('lesson-said')).includes('Not so'));
    check('a score of both', (await textOf('lesson-tabs')).includes('1/2'));
    await b.value("star.app.lesson.start(0, 9); document.getElementById('lesson-own').click()");
    await b.frame();
    const own = await b.value('star.app.plan.m');
    check('an exercise from the own table', own === 5 && (await b.value('star.app.asked')));
    await press('lesson-leave');
    check('the plan is back', kept === (await b.value('star.app.text()')));
    await press('undo');
    check('with what was done', (await textOf('head')).includes('1 can be saved'));
  },

  async doors() {
    const calls = process.env.CALLS;
    if (!calls) return;
    const source = fs.readFileSync(path.join(here, 'calls.js'), 'utf8').replace(/^export /gm, '');
    await b.value(`star.openFile = async (file) => {
      star.calls = new Uint8Array(await file.arrayBuffer());
    }`);
    const { root } = await b.send('DOM.getDocument');
    const found = await b.send('DOM.querySelector', { nodeId: root.nodeId, selector: '#file' });
    await b.send('DOM.setFileInputFiles', { files: [calls], nodeId: found.nodeId });
    for (let k = 0; k < 500 && !(await b.value('Boolean(star.calls)')); k++) await b.frame();
    const told = await b.value(`(() => { ${source}
      return callsCompare(star.app.core.doors, star.calls); })()`);
    console.log(`${told.calls} calls in the browser as in the native library`);
    const same = Object.keys(told.different).length === 0;
    check('the doors in the browser', told.calls > 10000 && same);
    await b.value('delete star.openFile; delete star.calls');
  },

};

const PARTS = [OWN, ...[buttonsGroups, clicksGroups, insideGroups, kindsGroups, movesGroups,
  reachGroups, ...(paperReadable() ? [paperGroups] : [])].map((groups) => groups(tools))];
/** @type {Record<string, () => Promise<void>>} */
const GROUPS = Object.assign({}, ...PARTS);
const names = PARTS.flatMap((part) => Object.keys(part));
check('no two groups of one name', names.length === Object.keys(GROUPS).length);

async function run() {
  await b.start();
  await b.size(1280, 800);
  await b.send('Browser.setDownloadBehavior', { behavior: 'allow', downloadPath: folder });
  await b.go(path.resolve(html));
  const named = asked.filter((name) => !name.startsWith('-'));
  const rest = Object.keys(GROUPS).filter((name) => !asked.includes(`-${name}`));
  for (const name of named.length > 0 ? named : rest) await GROUPS[name]();
  if (named.length === 0) {
    const acts = await b.value('Object.keys(star.acts)');
    const never = acts.filter((/** @type {string} */ act) => !pressed.has(act));
    check(`every button was pressed; not so: ${never}`, never.length === 0);
  }
  check(`no request, no word on the console (${b.log.slice(0, 3)})`, b.log.length === 0);
  await b.close();
  fs.rmSync(folder, { recursive: true, force: true });
  console.log(`${passed} passed, ${failed} failed`);
  process.exit(failed ? 1 : 0);
}

run().catch((fault) => {
  console.log(fault);
  console.log('0 passed, 1 failed');
  process.exit(1);
});
