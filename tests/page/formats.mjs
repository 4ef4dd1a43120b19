// GeoJSON as the page reads it, held to the Python package on random files, some of them wrong: the
// same tables, names and coordinates, or the same words about what is wrong.
// usage: node formats.mjs STAR.wasm COUNT   STAR_LIBRARY names the shared library.
// Ends in one line 'N passed, M failed'.
import { spawnSync } from 'node:child_process';
import fs from 'node:fs';
import os from 'node:os';
import path from 'node:path';
import { fileURLToPath } from 'node:url';
import { App } from '../../page/src/app.js';
import { coreOpen } from '../../page/src/core.js';
import { randomFrom } from '../../page/src/random.js';
import { junction } from '../../page/src/words.js';

const [, , module, count] = process.argv;
const here = path.dirname(fileURLToPath(import.meta.url));
const next = randomFrom(97);
/** @param {number} k */
const rnd = (k) => Math.floor(next() * k);
/** @template T @param {T[]} list */
const pick = (list) => list[rnd(list.length)];

const NAMES = ['mill', 'lock', "St. John's", 'a "b"', 'x, y', 'Gr\u00fcner Weg; 3', '7', '012',
  '\u6c34', 'tab\there', 'two\nlines', ' ends ', '-', '#1', '300', 'constructor'];

/** Rows of junctions by their indices, mostly without repeats.
 * @param {number} n */
function pairs(n) {
  const seen = new Set();
  return Array.from({ length: rnd(3) ? rnd(14) : 0 }, () => [rnd(n), rnd(n)]).filter(([a, b]) => {
    const key = [a, b].sort().join();
    if ((a === b || seen.has(key)) && rnd(12)) return false;
    seen.add(key);
    return true;
  });
}

/** A feature that is wrong in one way.
 * @param {any} feature */
function spoil(feature) {
  const ways = [() => null, () => ({ ...feature, geometry: null }),
    () => ({ ...feature, properties: [] }), () => ({ ...feature, properties: 5 }),
    () => ({ ...feature, geometry: { type: 'Polygon', coordinates: [] } }),
    () => ({ ...feature, geometry: { type: 'LineString', coordinates: [[1.5, 2.5]] } }),
    () => ({ ...feature, geometry: { type: 'LineString', coordinates: [[1.5], [2, 3]] } }),
    () => ({ ...feature, geometry: { type: 'LineString', coordinates: [['1', 2], [2, 3]] } }),
    () => ({ ...feature, geometry: { type: 'Point', coordinates: [true, 2] } }),
    () => ({ ...feature, properties: { price: pick([null, true, [5], {}, '7', 'x', 2.5, 1e12]) } }),
    () => ({ ...feature, properties: { price: 3, marked: pick([2, 'yes', [], null]) } }),
    () => ({ ...feature, geometry: { type: 'Point', coordinates: [9, 9] }, properties: {
      name: pick(['mill', 'lock', 5, ['a']]) } })];
  return pick(ways)();
}

function anyGeojson() {
  const features = [];
  const places = Array.from({ length: 14 }, (_, v) => [v + 0.25, rnd(90) + (v % 3) * 0.5]);
  /** @param {number} v */
  const point = (v) => (rnd(4) ? places[v] : [...places[v], 3]);
  for (let v = 0; v < 14; v++) {
    if (rnd(3)) continue;
    const name = rnd(8) ? NAMES[v] : pick([v, 'mill', NAMES[v]]);
    const junction = pick([v, 14 - v, 'x', 2.5]);
    const named = pick([{ name }, { name }, {}, { junction }, { name, junction }]);
    features.push({ type: 'Feature', properties: named,
      geometry: { type: 'Point', coordinates: point(v) } });
  }
  for (const [a, b] of pairs(14)) {
    const line = [point(a), ...(rnd(3) ? [] : [[0.5, 0.75]]), point(b)];
    const price = pick([7, 7, 12, -3, 0, '4', 7.0, 1e3, '1e3', '7.00', '0.7e1']);
    features.push({ type: 'Feature', properties: { price, ...pick([{}, { marked: true },
      { marked: false }, { marked: 1 }]) }, geometry: { type: 'LineString', coordinates: line } });
  }
  if (rnd(3) === 0 && features.length > 0) {
    const at = rnd(features.length);
    features[at] = spoil(features[at]);
  }
  if (rnd(4) === 0) features.sort(() => next() - 0.5);
  const whole = { type: 'FeatureCollection', features };
  const text = JSON.stringify(rnd(15) ? whole : pick([features, { type: 'x' }, 5]), null, rnd(2));
  return rnd(15) ? text : text.slice(0, rnd(text.length));
}

/** Whether the file that is saved is read as the table that it was, with its names where each can
 * be one.
 * @param {import('../../page/src/core.js').Core} core @param {App} app */
function savedAgain(core, app) {
  const again = new App(core);
  if (again.open(new Uint8Array(Buffer.from(app.text(), 'latin1')), 'again.txt')) return false;
  /** @param {App} of */
  const table = ({ plan: p }) => [p.n, p.left, p.right, p.price, p.mark].join(';');
  const { names, left, right, n } = app.plan;
  const met = new Set([...left, ...right]).size === n;
  const apart = met && names.every((name) => name === name.trim() && !/[";#]/.test(name) &&
    /[A-Za-z\u0080-\uffff]/.test(name));
  const kept = again.plan.names.join('\n') === names.join('\n');
  return table(app) === table(again) && (apart && names.length > 0 ? kept : true);
}

/** What the page makes of a file, in the words of formats.py.
 * @param {import('../../page/src/core.js').Core} core @param {string} name @param {Buffer} bytes */
function read(core, name, bytes) {
  const app = new App(core);
  app.open(new Uint8Array(Buffer.from('1 2 9 1\n')), 'before.txt');
  const wrong = app.open(new Uint8Array(bytes), name);
  if (wrong) {
    const kept = app.name === 'before.txt' && app.text() === '1 2 9 1\n';
    const refused = /^\S+: Refused \((\d+)\)/.exec(wrong);
    if (refused && kept) return { refused: Number(refused[1]) };
    const found = /^\S+: (?:row (\d+): )?([^]*)$/.exec(wrong) || ['', '0', wrong];
    return { place: Number(found[1] || 0), words: found[2], kept };
  }
  const { verdict } = app.judgement;
  if (verdict.kind === 0 && verdict.number <= 2) return { refused: verdict.number };
  const { n, m, left, right, price, mark } = app.plan;
  const names = Array.from({ length: n }, (_, k) => junction(app.plan, k + 1));
  const rows = Array.from({ length: m }, (_, i) => [left[i], right[i], price[i], mark[i]]);
  return { n, names, rows, places: app.coordinates, saved: savedAgain(core, app) };
}

/** Whether the page and the package say the same. The package has more words where it names what
 * its functions take.
 * @param {any} mine @param {any} theirs */
function same(mine, theirs) {
  if (theirs.words !== undefined) {
    const words = theirs.words.replace(/\bNone\b/g, 'null').replace(/\bTrue\b/g, 'true');
    /** @param {string} text */
    const plain = (text) => text.replace(/["'\\]/g, "'");
    return mine.kept && mine.place === theirs.place && plain(words).startsWith(plain(mine.words));
  }
  if (theirs.refused) return mine.refused === theirs.refused;
  if (mine.n !== theirs.n) return false;
  /** @param {any} name */
  const shown = (name) => String(name).replace(/[^ -\uffff]+/g, ' ');
  const keys = theirs.names.map((/** @type {any} */ name) => JSON.stringify(name));
  // In a file with names junctions have their numbers in the order in which lines meet them.
  const order = theirs.names.map((/** @type {any} */ name, /** @type {number} */ k) =>
    (Array.isArray(name) || mine.names[k] === shown(name) ? k : mine.names.indexOf(shown(name))));
  const numbers = theirs.rows.map((/** @type {any[]} */ [a, b, ...rest]) =>
    [...[a, b].map((end) => 1 + order[keys.indexOf(JSON.stringify(end))]), ...rest]);
  const named = theirs.names.every((/** @type {any} */ name, /** @type {number} */ k) =>
    (Array.isArray(name) ? mine.names[k] === String(k + 1) : order[k] >= 0));
  if (!mine.saved || new Set(order).size !== order.length) return false;
  const placed = !mine.places || order.every((/** @type {number} */ at, /** @type {number} */ k) =>
    JSON.stringify(mine.places[at]) === JSON.stringify(theirs.places[k]));
  return named && placed && JSON.stringify(mine.rows) === JSON.stringify(numbers);
}

/** @param {import('../../page/src/core.js').Core} core */
function run(core) {
  const folder = fs.mkdtempSync(path.join(os.tmpdir(), 'star-formats-'));
  /** @type {[string, Buffer][]} */
  const files = Array.from({ length: Number(count) }, (_, k) => {
    const bytes = Buffer.from(anyGeojson());
    if (rnd(60) === 0 && bytes.length > 0) bytes[rnd(bytes.length)] = 0xff;
    const suffix = pick(['json', 'geojson']);
    const name = `${String(k).padStart(6, '0')}.${suffix}`;
    fs.writeFileSync(path.join(folder, name), bytes);
    return [name, bytes];
  });
  const env = { ...process.env, PYTHONPATH: path.join(here, '../../python') };
  const ran = spawnSync('python3', ['-B', path.join(here, 'formats.py'), folder],
    { encoding: 'utf8', env, maxBuffer: 1 << 28 });
  if (ran.status !== 0) {
    console.log(`${ran.stderr}\n0 passed, 1 failed`);
    process.exit(1);
  }
  const theirs = ran.stdout.trim().split('\n').map((line) => JSON.parse(line));
  let [passed, failed, refused, tables] = [0, 0, 0, 0];
  files.forEach(([name, bytes], k) => {
    const mine = read(core, name, bytes);
    if (theirs[k].words) refused++;
    if (theirs[k].rows && theirs[k].rows.length > 2) tables++;
    if (same(mine, theirs[k])) passed++;
    else if (++failed < 6) {
      const words = [bytes.toString(), mine, theirs[k]].map((part) => JSON.stringify(part));
      console.log(`formats: ${name} ${words[0]}\n  page ${words[1]}\n  package ${words[2]}`);
    }
  });
  if (refused < files.length / 10 || tables < files.length / 5) failed++;
  fs.rmSync(folder, { recursive: true });
  console.log(`${files.length} files, ${tables} of them tables, ${refused} of them wrong`);
  console.log(`${passed} passed, ${failed} failed`);
  process.exit(failed ? 1 : 0);
}

coreOpen(fs.readFileSync(module)).then(run);
