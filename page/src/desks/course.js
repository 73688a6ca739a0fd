// @ts-check
// A course that a desk sets for all: an entry of a journal carries it, so a long one is thinned.

import { readBase } from "../formats/read-vector.js";
import { degreesOf } from "../geo/sphere.js";

/** So many letters an entry can carry, of JSON and as they are. */
export const most = { spelled: 240_000, letters: 200_000 };
/** Digits behind the point of a degree: a metre. */
const DIGITS = 5;

/** @param {string} text */
const fits = text => text.length <= most.letters && JSON.stringify(text)
  .replace(/[^ -~]/g, "\\u0000").length <= most.spelled;
/** @param {Float64Array | number[]} vector */
function spot(vector) {
  const [north, east] = degreesOf(vector);
  return [Number(east.toFixed(DIGITS)), Number(north.toFixed(DIGITS))];
}
/**
 * Each so manyth place of a line, and its last one.
 * @param {Float64Array} line
 * @param {number} each
 */
function thinned(line, each) {
  const places = [], last = line.length / 3 - 1;
  for (let k = 0; k <= last; k++)
    if (k % each === 0 || k === last) places.push(spot(line.subarray(3 * k, 3 * k + 3)));
  return places;
}
/**
 * The text of a map as it is, or where it is long as GeoJSON with fewer places; throws where it is
 * no map, or has too many points.
 * @param {string} text
 */
export function courseFor(text) {
  const base = readBase(text);
  if (fits(text)) return text;
  const feature = (/** @type {object} */ geometry, /** @type {object} */ properties) =>
    ({ type: "Feature", properties, geometry });
  const points = base.points.map(({ vector, name }) =>
    feature({ type: "Point", coordinates: spot(vector) }, { name }));
  for (let each = 1; each < 4096; each *= 2) {
    const lines = base.lines.map(it => thinned(it, each));
    const map = JSON.stringify({ type: "FeatureCollection", features: [...points,
      feature({ type: "MultiLineString", coordinates: lines }, {})] });
    if (fits(map)) return map;
  }
  throw new Error("a map of too many points for all desks: give it to the server by --course");
}
