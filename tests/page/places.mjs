// The page's picture held to the console's: junctions and bends of the module are those that
// 'star draw' writes, but for the scale of its sheet and the decimals that it writes.
// usage: node places.mjs STAR STAR.wasm COUNT   Ends in one line 'N passed, M failed'.
import fs from 'node:fs';
import os from 'node:os';
import path from 'node:path';
import { fileURLToPath } from 'node:url';
import { App } from '../../page/src/app.js';
import { bendPoint } from '../../page/src/bends.js';
import { coreOpen } from '../../page/src/core.js';
import { layoutOf } from '../../page/src/layout.js';
import { randomFrom } from '../../page/src/random.js';
import { ROUNDING, apart, drawnBy } from './drawn.mjs';
import { tablesFor } from './tables.mjs';

const [, , console_, module, count] = process.argv;
const examples = path.join(path.dirname(fileURLToPath(import.meta.url)), '../../console/examples');
const folder = fs.mkdtempSync(path.join(os.tmpdir(), 'star-places-'));
const MOST_TIME = 300; // milliseconds of a layout
const next = randomFrom(41);
/** @param {number} k */
const rnd = (k) => Math.floor(next() * k);

let passed = 0;
let failed = 0;
/** @param {string} what @param {boolean} holds */
function check(what, holds) {
  if (holds) passed++;
  else failed++;
  if (!holds) console.log('places:', what, 'failed');
}

/** A table of any shape; some junctions may stand apart, some trenches are struck. */
function anyTable() {
  const n = 1 + rnd(rnd(3) ? 30 : 255);
  const seen = new Set();
  const lines = [`junctions ${n}`];
  for (let k = rnd(4 * n); k > 0 && lines.length < 1024; k--) {
    const [a, b] = [1 + rnd(n), 1 + rnd(n)];
    const key = Math.min(a, b) * 256 + Math.max(a, b);
    if (a === b || seen.has(key)) continue;
    seen.add(key);
    lines.push(`${rnd(9) ? '' : 'struck '}${a} ${b} ${rnd(900)} ${Number(rnd(3) === 0)}`);
  }
  return `${lines.join('\n')}\n`;
}

/** An STP text whose junctions have coordinates, written in many ways. */
function withCoordinates() {
  const n = 5 + rnd(40);
  const wide = 10 ** (1 + rnd(5));
  const edges = Array.from({ length: n - 1 }, (_, k) => `E ${1 + rnd(k + 1)} ${k + 2} ${rnd(99)}`);
  const points = Array.from({ length: n }, (_, k) => {
    const [x, y] = [k * wide * 0.37 - wide, rnd(1000) * wide * 1e-3];
    const words = [k + 1, rnd(2) ? x.toFixed(rnd(4)) : x.toExponential(6), y];
    return `${rnd(2) ? 'DD' : 'dd'} ${words.join(' ')}`;
  });
  return ['33D32945 STP File, STP Format Version 1.0', 'SECTION Graph', `Nodes ${n}`,
    `Edges ${n - 1}`, ...edges, 'END', 'Section coordinates', ...points, 'END', 'EOF', '']
    .join(rnd(2) ? '\n' : '\r\n');
}

/** @param {import('../../page/src/core.js').Core} core @param {string} name
 * @param {string} text */
function compare(core, name, text) {
  const file = path.join(folder, 'table');
  fs.writeFileSync(file, text, 'latin1');
  const app = new App(core);
  if (app.open(new Uint8Array(Buffer.from(text, 'latin1')), name) || !app.judgement.drawn) return 0;
  const p = app.plan;
  const from = process.cpuUsage();
  const at = layoutOf(core, p, app.coordinates, true);
  const { user, system } = process.cpuUsage(from);
  const { junctions, lines } = drawnBy(console_, file);
  const mine = Array.from({ length: p.n }, (_, v) => [at.x[v], at.y[v]]);
  const bent = lines.map(([, , row]) => {
    const q = bendPoint(p, at, row - 1, 0.5, 2 * at.bends[row - 1]);
    return [q.x, q.y];
  });
  const rows = p.struck.reduce((k, struck) => k + 1 - struck, 0);
  check(`the lines of ${name}`, junctions.length === p.n && lines.length === rows);
  const far = apart([...junctions, ...lines], [...mine, ...bent]);
  check(`the picture of ${name}, ${far.toFixed(3)} pixels`, far < ROUNDING);
  if (text.startsWith('33D')) check(`the coordinates of ${name}`, app.coordinates !== null);
  return (user + system) / 1000;
}

/** @param {import('../../page/src/core.js').Core} core */
function run(core) {
  let most = 0;
  const tables = Object.entries(tablesFor(examples));
  for (let k = 0; k < Number(count); k++) {
    tables.push([`table ${k}`, anyTable()], [`text ${k}`, withCoordinates()]);
  }
  for (const [name, text] of tables) most = Math.max(most, compare(core, name, text));
  fs.rmSync(folder, { recursive: true });
  check('enough pictures', passed > 2 * tables.length - 20);
  check('the time of a layout', most < MOST_TIME);
  console.log(`${tables.length} tables, the longest layout ${most.toFixed(0)} ms`);
  console.log(`${passed} passed, ${failed} failed`);
  process.exit(failed ? 1 : 0);
}

coreOpen(fs.readFileSync(module)).then(run);
