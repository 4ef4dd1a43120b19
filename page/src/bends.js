// The line of a trench: straight, or with its middle moved aside.

/** @typedef {import('./plan.js').Plan} Plan */
/** @typedef {import('./layout.js').Places} Places */

/** The point at a share of row i.
 * @param {Plan} p @param {Places} at @param {number} i @param {number} share
 * @param {number} [bend] how far its middle is moved aside */
export function bendPoint(p, at, i, share, bend = at.bends[i]) {
  const [a, b] = [p.left[i] - 1, p.right[i] - 1];
  const [dx, dy] = [at.x[b] - at.x[a], at.y[b] - at.y[a]];
  const aside = (4 * bend * share * (1 - share)) / (Math.hypot(dx, dy) || 1);
  return { x: at.x[a] + dx * share - dy * aside, y: at.y[a] + dy * share + dx * aside };
}

/** Row i as the path of an SVG.
 * @param {Plan} p @param {Places} at @param {number} i */
export function bendPath(p, at, i) {
  const [a, b] = [p.left[i] - 1, p.right[i] - 1];
  const end = `${at.x[b]} ${at.y[b]}`;
  if (at.bends[i] === 0) return `M${at.x[a]} ${at.y[a]}L${end}`;
  const q = bendPoint(p, at, i, 0.5, 2 * at.bends[i]);
  return `M${at.x[a]} ${at.y[a]}Q${q.x} ${q.y} ${end}`;
}
