// The page's verdicts, detours and rings, and what it writes after a change, held to the console on
// random files.
// usage: node files.mjs STAR STAR.wasm COUNT   Ends in one line 'N passed, M failed'.
import { spawnSync } from 'node:child_process';
import fs from 'node:fs';
import os from 'node:os';
import path from 'node:path';
import { App } from '../../page/src/app.js';
import { coreOpen } from '../../page/src/core.js';
import { detourOf } from '../../page/src/detour.js';
import { ringsThrough } from '../../page/src/rings.js';
import { planLeaves } from '../../page/src/plan.js';
import { randomFrom } from '../../page/src/random.js';
import { runs } from '../../page/src/words.js';

const [, , console_, module, count] = process.argv;
const folder = fs.mkdtempSync(path.join(os.tmpdir(), 'star-files-'));
const file = path.join(folder, 'table.txt');
const next = randomFrom(20261117);
/** A number below k.
 * @param {number} k */
const rnd = (k) => Math.floor(next() * k);
/** @template T @param {T[]} list */
const pick = (list) => list[rnd(list.length)];

/** How junctions are told in a file, and what may part its fields. */
function randomNames() {
  const kind = pick(['', '', '', '', 'J', 'Am Tor ']);
  const parts = [';', '; ', '\t', ','];
  const blanks = kind.includes(' ') ? [] : [' ', ' ', ' ', ' ', ' ', '  '];
  /** @param {number} v */
  const name = (v) => kind + v;
  return { name, parts: [...parts, ...blanks] };
}

/** @param {number} marked */
function randomMark(marked) {
  if (marked) return pick(['1', '1', '1', '01', 'x', 'Yes']);
  return pick(['0', '0', '0', '00', 'no', 'False', '']);
}

/** Random bytes of text, a line of them wrong at times. */
function randomFile() {
  const n = rnd(12) === 0 ? 40 + rnd(216) : 1 + rnd(9);
  const end = pick(['\n', '\n', '\n', '\r\n', '\r']);
  const { name, parts } = randomNames();
  const rows = randomRows(n);
  const tree = rnd(3);
  const lines = rnd(3) ? [`junctions ${n}`] : [];
  rows.forEach(([a, b], i) => {
    const price = rnd(2) ? rnd(6) : rnd(2000) - 900;
    const marked = tree ? Number(i < n - 1 && (tree === 1 || rnd(12) > 0)) : rnd(2);
    const struck = rnd(25) === 0 ? [pick(['struck', 'STRUCK'])] : [];
    const comment = rnd(6) ? '' : pick([' # x', '#', '\t# Main Street, 3']);
    const words = [...struck, name(a), name(b), String(price), randomMark(marked)];
    const fields = words.map((word) => (rnd(40) ? word : `"${word}"`));
    lines.push(pick(['', '', ' ']) + fields.join(pick(parts)) + comment);
    if (rnd(20) === 0) lines.push(pick(['', '# a remark', '  \t']));
  });
  const text = lines.join(end) + (rnd(6) ? end : '');
  return (rnd(20) ? '' : '\xef\xbb\xbf') + (rnd(8) ? text : randomFault(text));
}

/** Rows that mostly join all junctions.
 * @param {number} n */
function randomRows(n) {
  /** @type {number[][]} */
  const rows = [];
  const seen = new Set();
  /** @param {number} a @param {number} b */
  const add = (a, b) => {
    const key = Math.min(a, b) * 256 + Math.max(a, b);
    if (a === b || seen.has(key)) return;
    seen.add(key);
    rows.push([a, b]);
  };
  for (let v = 2; v <= n; v++) if (rnd(40)) add(1 + rnd(v - 1), v);
  for (let k = rnd(2 * n); k > 0 && rows.length < 1024; k--) add(1 + rnd(n), 1 + rnd(n));
  return rows;
}

/** A text with something wrong in it.
 * @param {string} text */
function randomFault(text) {
  const at = rnd(text.length + 1);
  const wrong = ['x', ',', '-', '999999999999', '300', ' 0 ', '\0', '\xe9', 'junctions 3', ' 2 ',
    '\n1 2\n', '\n3 3 1 1\n', '\n1 2 3 4 5\n', '2147483648'];
  return text.slice(0, at) + pick(wrong) + text.slice(at + rnd(3));
}

/** What the console says and writes.
 * @param {string[]} words */
function star(...words) {
  const ran = spawnSync(console_, words, { encoding: 'latin1' });
  return { out: ran.stdout, said: ran.stdout + ran.stderr, status: ran.status };
}

/** The plan by its detours, as `star explain --all` has them.
 * @param {App} app @param {string} said */
function sameDetours(app, said) {
  const { matrix, beside, rings } = app.judgement;
  if (matrix && beside) {
    const told = [...said.matchAll(
      /^trench (\d+) \(.* is left out\. .*\n {2}sum (-?\d+), .* dearest -?\d+ \(trench (\d+)\)/gm)];
    const left = app.plan.left.reduce((k, _, i) => k + Number(planLeaves(app.plan, i)), 0);
    return told.length === left && told.every(([, row, sum, dearest]) => {
      const i = Number(row) - 1;
      const detour = detourOf(matrix, app.plan, i, beside[i]);
      return detour.sum === Number(sum) && detour.dearest === Number(dearest) - 1;
    });
  }
  if (!rings || app.judgement.marks === 0) return true;
  const told = [...said.matchAll(/^A ring: trenches (.*) \(/gm)].map(([, rows]) => rows.split(','));
  const all = [...new Set(told.flat().map(Number))].sort((a, b) => a - b);
  const groups = [...said.matchAll(/^ {2}junctions? (.*)$/gm)].map(([, words]) => words);
  const same = rings.apart.length === 0 || app.plan.names.length > 0 ||
    groups.join('; ') === rings.groups.map(runs).join('; ');
  const ringed = rings.ringed.map((i) => i + 1);
  return same && told.length === rings.extra && all.join() === ringed.join();
}

/** Whether each ring that can be shown is one: each junction of it has two of its rows.
 * @param {App} app */
function soundRings(app) {
  const { rings } = app.judgement;
  return !rings || rings.ringed.every((row) => {
    const ring = ringsThrough(app.plan, rings, row);
    /** @type {Map<number, number>} */
    const at = new Map();
    for (const i of ring) {
      for (const v of [app.plan.left[i], app.plan.right[i]]) at.set(v, (at.get(v) || 0) + 1);
    }
    return [...at.values()].every((k) => k === 2) && at.size === ring.length;
  });
}

/** The lines of the file that are told.
 * @param {string} said */
const linesOf = (said) => [...said.matchAll(/table\.txt:(\d+):/g)].map(([, line]) => line).join();

/** @param {App} app */
function sameVerdict(app) {
  const { said } = star('check', file);
  const { verdict, total, exchange, least } = app.judgement;
  if (verdict.kind === 0) return said.includes(`Refused (${verdict.number})`);
  if (verdict.kind === 1) {
    return said.includes(`Total ${verdict.amount}.`) && total === verdict.amount;
  }
  if (!exchange || !least || exchange.saves < verdict.amount) return false;
  return [`for ${exchange.saves} less:`, `take out trench ${exchange.out + 1} (`,
    `put in   trench ${exchange.in + 1} (`, `total is ${total}, and ${total - exchange.saves} `,
    `The least total is ${least.amount}.`].every((words) => said.includes(words));
}

/** Changes that the page and the console can make to a row. Each gives the console's words.
 * @type {Record<string, (app: App, row: number) => string[]>} */
const CHANGES = {
  mend(app) {
    app.mendStart();
    app.mendTo(5000);
    app.mendEnd(true);
    return ['mend', file];
  },
  build(app) {
    app.build();
    return ['build', '--table', file];
  },
  mark(app, row) {
    const word = app.plan.mark[row] === 1 ? 'unmark' : 'mark';
    app.toggle(row);
    return [word, file, String(row + 1)];
  },
  strike(app, row) {
    const word = app.plan.struck[row] ? 'unstrike' : 'strike';
    app.strike(row);
    return [word, file, String(row + 1)];
  },
  price(app, row) {
    if (!app.plan.struck[row]) app.previewPrice(row, -12);
    app.settlePrice(row);
    return ['price', file, String(row + 1), '-12'];
  },
  outlets(app) {
    const [at, count_] = [1 + rnd(app.plan.n), 1 + rnd(3)];
    app.outlets(at, count_);
    return ['outlets', '--table', file, String(at), String(count_)];
  },
  districts(app) {
    const ends = [...new Set([1 + rnd(app.plan.m), app.plan.m])].sort((a, b) => a - b);
    app.districts(ends);
    return ['districts', '--table', file, ...ends.map(String)];
  },
  add(app) {
    const [a, b] = [1 + rnd(Math.min(255, app.plan.n + 1)), 1 + rnd(app.plan.n)];
    app.add([String(a), String(b)], -7);
    return ['add', file, String(a), String(b), '-7'];
  },
};

/** One change, made by the page and by the console: the files are the same, byte for byte, and so
 * is the file after the change is undone.
 * @param {App} app @param {string} text */
function sameChange(app, text) {
  const how = pick(Object.keys(CHANGES));
  const rows = app.plan.m;
  const words = CHANGES[rows > 0 ? how : 'add'](app, rows > 0 ? rnd(rows) : 0);
  const told = star(...words);
  const same = app.text() === (told.status === 0 ? told.out : text);
  while (app.history.back.length > 0) app.undo();
  return same && app.text() === text;
}

let passed = 0;
let failed = 0;
/** @type {Record<string, number>} */
const kinds = {};

/** @param {string} what @param {boolean} holds @param {string} text */
function check(what, holds, text) {
  if (holds) passed++;
  else failed++;
  if (!holds && failed < 6) console.log('files:', what, JSON.stringify(text.slice(0, 400)));
}

/** @param {import('../../page/src/core.js').Core} core */
function run(core) {
  for (let k = 0; k < Number(count); k++) {
    const text = randomFile();
    const bytes = Buffer.from(text, 'latin1');
    fs.writeFileSync(file, bytes);
    const app = new App(core);
    const wrong = app.open(new Uint8Array(bytes), file);
    if (wrong) {
      kinds.unreadable = (kinds.unreadable || 0) + 1;
      const { said, status } = star('check', file);
      check('what is wrong', status > 1 && linesOf(said) === linesOf(wrong), text);
      continue;
    }
    const { verdict } = app.judgement;
    const kind = verdict.kind === 0 ? `refused ${verdict.number}` : `kind ${verdict.kind}`;
    kinds[kind] = (kinds[kind] || 0) + 1;
    check('writing', app.text() === text, text);
    check('the verdict', sameVerdict(app), text);
    check('a ring', soundRings(app), text);
    if (k % 3 === 0) {
      check('detours', sameDetours(app, star('explain', file, '--all').said), text);
    }
    if (app.judgement.drawn) check('a change', sameChange(app, text), text);
  }
  fs.rmSync(folder, { recursive: true });
  const told = Object.entries(kinds).map((kind) => kind.join(': ')).join(', ');
  console.log(`${count} files: ${told}`);
  console.log(`${passed} passed, ${failed} failed`);
  process.exit(failed ? 1 : 0);
}

coreOpen(fs.readFileSync(module)).then(run);
