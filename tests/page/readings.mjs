// What the page reads of table files and CSV, through the module, held to a reader written from the
// rules (tests/tablefile): the tables with their names, or the lines that cannot stand.
// usage: node readings.mjs STAR.wasm COUNT FILE..   Ends in one line 'N passed, M failed'.
import { spawnSync } from 'node:child_process';
import fs from 'node:fs';
import path from 'node:path';
import { fileURLToPath } from 'node:url';
import { App } from '../../page/src/app.js';
import { coreOpen } from '../../page/src/core.js';
import { fileBytes, fileIsStp, fileText, fileWrite } from '../../page/src/file.js';
import { planCopy } from '../../page/src/plan.js';

const [, , module, count, ...files] = process.argv;
const here = path.dirname(fileURLToPath(import.meta.url));
const TOLD = 20;
const MOST_FILE = 16777216;
let [passed, failed] = [0, 0];

/** @param {string} what @param {boolean} holds @param {string} [text] */
function check(what, holds, text = '') {
  if (holds) passed++;
  else if (++failed < 6) {
    console.log('readings:', what, 'failed', JSON.stringify(text.slice(0, 300)));
  }
}

/** Whether a table is the one that was told; a struck row may have a mark, which does not count.
 * @param {App} app @param {any} told */
function sameTable(app, told) {
  const { plan: p, file } = app.history.now;
  const rows = Array.from(p.left, (a, i) => {
    return [a, p.right[i], p.price[i], p.struck[i] ? 0 : p.mark[i], p.struck[i]];
  });
  const lines = file.rowLine.slice(0, 9).map((k) => k + 1);
  return p.n === told.n && JSON.stringify([rows, file.names, lines]) ===
    JSON.stringify([told.rows, told.names, told.lines]);
}

/** A mark, a price and a strike, each of another row, written and read again.
 * @param {import('../../page/src/core.js').Core} core @param {App} app @param {any} told */
function changed(core, app, told) {
  const plan = planCopy(app.plan);
  const now = told.rows.map((/** @type {number[]} */ row) => row.slice());
  const [one, two, three] = [0, plan.m >> 1, plan.m - 1];
  if (!plan.struck[one]) now[one][3] = plan.mark[one] = 1 - plan.mark[one];
  now[two][2] = plan.price[two] = 12345;
  plan.struck[three] = 1;
  now[three].splice(3, 2, 0, 1);
  const again = new App(core);
  const text = fileWrite(app.history.now.file, plan);
  const wrong = again.open(fileBytes(text), 'table.txt');
  return wrong === '' && sameTable(again, { ...told, rows: now });
}

/** Whether the page tells these lines in the library's words, and how many there are.
 * @param {import('../../page/src/core.js').Core} core @param {string} wrong
 * @param {number[][]} of */
function sameFaults(core, wrong, of) {
  const lines = wrong.split('\n');
  const more = of.length > TOLD ? 1 : 0;
  if (lines.length !== Math.min(of.length, TOLD) + more) return false;
  if (more && lines[TOLD] !== 'table.txt: more lines cannot stand') return false;
  return of.slice(0, TOLD).every(([line, number], k) =>
    lines[k].startsWith(`table.txt:${line}: ${core.refusal(number)}: '`));
}

/** @param {import('../../page/src/core.js').Core} core @param {any} told */
function compare(core, told) {
  const bytes = new Uint8Array(Buffer.from(told.text, 'base64'));
  const text = fileText(bytes);
  if (fileIsStp(text)) return;
  const app = new App(core);
  const wrong = app.open(bytes, 'table.txt');
  if (told.faults) {
    check('lines that cannot stand', sameFaults(core, wrong, told.faults), text);
    return;
  }
  check('a table', wrong === '' && sameTable(app, told), text);
  check('as it is written', wrong === '' && app.text() === text, text);
  if (wrong === '' && told.rows.length > 2) check('a change', changed(core, app, told), text);
}

/** Texts at the bound of what is read, and the longest lines.
 * @param {import('../../page/src/core.js').Core} core */
function bounds(core) {
  const app = new App(core);
  /** @param {string} text */
  const open = (text) => app.open(new Uint8Array(Buffer.from(text, 'latin1')), 'table.txt');
  check('the longest text', open(`1 2 5 1\n${'#'.repeat(MOST_FILE - 8)}`) === '');
  check('a longer one', open('#'.repeat(MOST_FILE + 1)) === `table.txt: ${core.refusal(12)}`);
  const long = 'n'.repeat(60000);
  check('a long name', open(`${long};b;5;1`) === '' && app.plan.names[0] === long);
  check('a line of blanks', open(`1 2 5 1\n${' '.repeat(1000000)}\n`) === '' && app.plan.m === 1);
  const wide = open(`1${' 2'.repeat(500000)}\n`);
  check('a line of fields', wide.startsWith(`table.txt:1: ${core.refusal(20)}: '`));
}

/** @param {import('../../page/src/core.js').Core} core */
function run(core) {
  const ran = spawnSync('python3', ['-B', path.join(here, 'readings.py'), count, ...files],
    { encoding: 'utf8', maxBuffer: 1 << 28 });
  if (ran.status !== 0) {
    console.log(`${ran.stderr}\n0 passed, 1 failed`);
    process.exit(1);
  }
  const all = ran.stdout.trim().split('\n').map((line) => JSON.parse(line));
  for (const told of all) compare(core, told);
  bounds(core);
  const named = all.filter(({ names }) => names && names.length > 0).length;
  const wrong = all.filter(({ faults }) => faults).length;
  check('enough of each', named > all.length / 20 && wrong > all.length / 20);
  console.log(`${all.length} texts, ${named} of them with names, ${wrong} that cannot stand`);
  console.log(`${passed} passed, ${failed} failed`);
  process.exit(failed ? 1 : 0);
}

coreOpen(fs.readFileSync(module)).then(run);
