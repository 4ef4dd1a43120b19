// What 'star draw' has drawn, and how far another picture of the same network is from it.
import { spawnSync } from 'node:child_process';

export const ROUNDING = 0.06; // pixels: the console writes tenths of them

/** The junctions and the control points of the lines that the console draws.
 * @param {string} star @param {string} file */
export function drawnBy(star, file) {
  const svg = spawnSync(star, ['draw', file], { encoding: 'latin1' }).stdout;
  /** @param {RegExp} of */
  const numbers = (of) => [...svg.matchAll(of)].map((found) => found.slice(1).map(Number));
  return {
    junctions: numbers(/<circle cx="([-\d.]+)" cy="([-\d.]+)"/g),
    lines: numbers(/d="M[-\d.]+ [-\d.]+Q([-\d.]+) ([-\d.]+) [-\d. ]+"><title>trench (\d+):/g),
  };
}

/** The scale of the sheet, by least squares.
 * @param {number[][]} theirs @param {number[][]} mine */
function scaleOf(theirs, mine) {
  let [both, own] = [0, 0];
  for (const axis of [0, 1]) {
    const [a, c] = [mine, theirs].map((list) => list.reduce((sum, at) => sum + at[axis], 0));
    mine.forEach((at, k) => {
      const from = at[axis] - a / mine.length;
      both += from * (theirs[k][axis] - c / mine.length);
      own += from * from;
    });
  }
  return own > 0 ? both / own : 1;
}

/** How far two pictures are from each other but for the scale and the place on the sheet, in pixels
 * of the first.
 * @param {number[][]} theirs @param {number[][]} mine */
export function apart(theirs, mine) {
  const scale = scaleOf(theirs, mine);
  return [0, 1].map((axis) => {
    const shift = mine.map((at, k) => theirs[k][axis] - scale * at[axis]);
    return (Math.max(...shift) - Math.min(...shift)) / 2;
  }).reduce((a, b) => Math.max(a, b), 0);
}
