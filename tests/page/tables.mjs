// Tables of many shapes, for the tests of the picture.
import fs from 'node:fs';
import path from 'node:path';
import { randomFrom } from '../../page/src/random.js';

const next = randomFrom(5);
/** @param {number} k */
const rnd = (k) => Math.floor(next() * k);

/** @param {number} n @param {number[][]} rows */
function table(n, rows) {
  const lines = rows.map(([a, b], i) => `${a} ${b} ${10 + rnd(990)} ${Number(i < n - 1)}`);
  return `junctions ${n}\n${lines.join('\n')}\n`;
}

/** @param {number} n @param {(v: number) => number} other */
const tree = (n, other) => Array.from({ length: n - 1 }, (_, k) => [other(k + 2), k + 2]);

/** Trees with more rows.
 * @param {number} n @param {number} m */
function random(n, m) {
  const rows = tree(n, (v) => 1 + rnd(v - 1));
  const seen = new Set(rows.map(([a, b]) => a * 256 + b));
  while (rows.length < m) {
    const [a, b] = [1 + rnd(n), 1 + rnd(n)].sort((x, y) => x - y);
    if (a === b || seen.has(a * 256 + b)) continue;
    seen.add(a * 256 + b);
    rows.push([a, b]);
  }
  return rows;
}

/** Every pair.
 * @param {number} n */
const pairs = (n) => random(n, (n * (n - 1)) / 2);

/** @param {string} examples the console's examples @returns {Record<string, string>} */
export function tablesFor(examples) {
  /** @param {string} name */
  const own = (name) => fs.readFileSync(path.join(examples, name), 'utf8');
  return {
    yard: own('yard.txt'),
    bridge: own('bridge.txt'),
    grant: own('grant.txt'),
    city: own('city.txt'),
    path: table(255, tree(255, (v) => v - 1)),
    star: table(255, tree(255, () => 1)),
    pairs: table(45, pairs(45)),
    tree: table(80, tree(80, (v) => Math.floor(v / 2))),
    town: table(40, random(40, 90)),
    large: table(255, random(255, 1024)),
  };
}
