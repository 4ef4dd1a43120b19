// Where junctions stand and how trenches are bent: the console's own code, which stands in the
// module (console/places.h), so that the page and the console draw one picture.

/** @typedef {import('./core.js').Core} Core */
/** @typedef {import('./plan.js').Plan} Plan */
/** Coordinates of the junctions, junction v at index v - 1, and how far the middle of each row is
 * moved aside.
 * @typedef {{x: Float64Array, y: Float64Array, bends: Float64Array}} Places */

/** Where junction v stands.
 * @param {Core} core @param {number} v */
function layoutPlace(core, v) {
  return [0, 8].map((by) => core.view.getFloat64(core.at + 16 * v + by, true));
}

/** The coordinates of junctions 1 to n in the STP text that was put; null unless each has them.
 * @param {Core} core @param {number} length @param {number} n */
export function layoutCoordinates(core, length, n) {
  if (!core.doors.places_read(core.text, length, n, core.at)) return null;
  return Array.from({ length: n }, (_, k) => layoutPlace(core, k + 1));
}

/** Places by coordinates; whether no two junctions have the same.
 * @param {Core} core @param {Plan} p @param {number[][]} given */
function layoutGiven(core, p, given) {
  const { doors, view, left, right, at } = core;
  given.slice(0, p.n).forEach((place, k) => {
    place.forEach((c, by) => view.setFloat64(at + 16 * (k + 1) + 8 * by, c, true));
  });
  return doors.places_given(p.n, p.m, left, right, at) !== 0;
}

/** @param {Core} core @param {Plan} p
 * @param {number[][] | null} given coordinates, or null
 * @param {boolean} wide whether the sheet is; on a high one what was not given lies on its side
 * @returns {Places} */
export function layoutOf(core, p, given, wide) {
  const { doors, view, left, right, at, bend } = core;
  core.put(p);
  const own = given !== null && given.length >= p.n && layoutGiven(core, p, given);
  if (!own) doors.places_of(p.n, p.m, left, right, at);
  doors.places_bends(p.n, p.m, left, right, at, bend);
  const places = Array.from({ length: p.n }, (_, k) => layoutPlace(core, k + 1));
  const bends = Float64Array.from({ length: p.m }, (_, i) => view.getFloat64(bend + 8 * i, true));
  const [x, y] = [0, 1].map((by) => Float64Array.from(places, (place) => place[by]));
  return own || wide ? { x, y, bends } : { x: y, y: x, bends: bends.map((by) => -by) };
}
