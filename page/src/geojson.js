// GeoJSON, as python/star/geojson.py reads it: a LineString a row, with its price among the
// properties; end points that coincide are one junction; a Point with a name names the one there,
// and one with a number as its property junction is a junction, whether lines end there or not.
import { rowsFault, rowsNumbered, rowsQuote } from './rows.js';

/** @typedef {Record<string, any>} Part */

const MOST_COORDINATE = 1e300;

/** @param {unknown} value */
const isPart = (value) => typeof value === 'object' && value !== null && !Array.isArray(value);

/** The geometry and the properties of each feature.
 * @param {string} text @returns {Part[][]} */
function geojsonFeatures(text) {
  let found;
  try {
    found = JSON.parse(text);
  } catch (fault) {
    rowsFault(0, 'it is no JSON');
  }
  const features = isPart(found) ? found.features : null;
  if (!Array.isArray(features)) rowsFault(0, 'it is no GeoJSON with a list of features');
  return features.map((/** @type {any} */ feature, /** @type {number} */ k) => {
    const parts = isPart(feature) ? ['geometry', 'properties'].map((key) => {
      const part = feature[key];
      return !part || (Array.isArray(part) && part.length === 0) ? {} : part;
    }) : [null];
    if (!parts.every(isPart)) rowsFault(0, `feature ${k + 1} is no feature of GeoJSON`);
    return parts;
  });
}

/** Whether a point has two coordinates or more, all of them numbers.
 * @param {unknown} point */
const isPoint = (point) => Array.isArray(point) && point.length >= 2 &&
  point.every((c) => typeof c === 'number' && Math.abs(c) < MOST_COORDINATE);

/** The names that Points give to junctions, by their places, and the places of those that say
 * which junction they are, in the order of these numbers.
 * @param {Part[][]} features */
function geojsonPoints(features) {
  /** @type {Map<string, string | number | boolean>} */
  const names = new Map();
  /** @type {Map<string | number | boolean | undefined, string>} */
  const places = new Map();
  /** @type {[number, number[]][]} */
  const numbered = [];
  for (const [geometry, { name = null, junction }] of features) {
    if (geometry.type !== 'Point' || (name === null && !Number.isInteger(junction))) continue;
    if (name !== null && typeof name === 'object') {
      rowsFault(0, `${rowsQuote(name)} is no name of a junction`);
    }
    if (!isPoint(geometry.coordinates)) {
      rowsFault(0, `the coordinates of the junction ${rowsQuote(name)} are not numbers`);
    }
    const place = geojsonPlace(geometry.coordinates);
    if (Number.isInteger(junction)) numbered.push([junction, place]);
    if (name !== null) geojsonNamed(names, places, place.join(), name);
  }
  numbered.sort(([a, [x, y]], [b, [z, w]]) => a - b || x - z || y - w);
  return { names, numbered: numbered.map(([, place]) => place) };
}

/** Names the junction at a place.
 * @param {Map<string, any>} names @param {Map<any, string>} places @param {string} place
 * @param {string | number | boolean} name */
function geojsonNamed(names, places, place, name) {
  if (places.has(name) && places.get(name) !== place) {
    rowsFault(0, `two junctions are named ${rowsQuote(name)}`);
  }
  places.delete(names.get(place));
  places.set(name, place);
  names.set(place, name);
}

/** Where a point lies, without its height.
 * @param {number[]} point */
const geojsonPlace = (point) => point.slice(0, 2).map((c) => c + 0);

/** @param {string} text */
export function geojsonRead(text) {
  const features = geojsonFeatures(text);
  const { names, numbered } = geojsonPoints(features);
  /** @param {number[]} place */
  const nameAt = (place) => {
    const name = names.get(place.join());
    return name === undefined ? place : name;
  };
  /** @type {number[][][]} */
  const ends = [];
  const given = features.filter(([{ type }]) => type !== 'Point').map((feature, k) => {
    const [{ type, coordinates: line }, properties] = feature;
    if (type !== 'LineString' || !Array.isArray(line) || line.length < 2) {
      rowsFault(k + 1, 'it is neither a Point nor a LineString of two points or more');
    }
    if (!line.every(isPoint)) rowsFault(k + 1, 'its coordinates are not numbers');
    if (!Object.keys(properties).includes('price')) {
      rowsFault(k + 1, "the feature has no 'price'");
    }
    ends.push([geojsonPlace(line[0]), geojsonPlace(line[line.length - 1])]);
    const [left, right] = ends[k].map(nameAt);
    return { left, right, price: properties.price, mark: properties.marked };
  });
  const read = rowsNumbered(given, numbered.map(nameAt));
  /** @type {number[][]} */
  const coordinates = [];
  for (const place of [...numbered, ...ends.flat()]) {
    const key = JSON.stringify(nameAt(place));
    coordinates[read.names.findIndex((name) => JSON.stringify(name) === key)] = place;
  }
  return { ...read, coordinates };
}
