// @ts-check
// Writes places and tracks as GeoJSON (RFC 7946).

import { decimal, hasMoved, PART, partsOf } from "./places.js";
import { said } from "../util/text.js";
import { isoText } from "../util/time.js";

/** @typedef {import("../net/net.js").Net} Net */
/** @typedef {import("../net/things.js").Thing} Thing */
/** @typedef {import("../net/rows.js").Place} Place */
/** @typedef {Generator<string>} Pieces of a text */
/** @typedef {[number, number]} Spot east and north, in degrees */

/**
 * A line, cut where it goes over the date line (RFC 7946, 3.1.9).
 * @param {Spot[]} spots
 */
function cutAtDateLine(spots) {
  /** @type {Spot[][]} */
  const lines = [[]];
  const put = (/** @type {Spot} */ it) => lines[lines.length - 1].push(it);
  spots.forEach(([east, north], k) => {
    const [lastEast, lastNorth] = spots[k - 1] || [east, north];
    if (Math.abs(east - lastEast) > 180) {
      const side = lastEast < 0 ? -180 : 180, way = east - lastEast + (lastEast < 0 ? -360 : 360);
      const share = way ? (side - lastEast) / way : 0;
      const between = lastNorth + (north - lastNorth) * share;
      put([side, between]);
      lines.push([[-side, between]]);
    }
    put([east, north]);
  });
  return lines.filter(it => it.length > 1);
}
const spotAt = (/** @type {number} */ north, /** @type {number} */ east) =>
  /** @type {Spot} */ ([Number(decimal(east)), Number(decimal(north))]);
/**
 * The runs of a thing's places, each but the last ended by a kill; texts without letters between
 * are pauses.
 * @param {Thing} thing
 * @returns {Generator<string, Spot[][]>}
 */
function* segmentsOf({ rows: { north, east, killed }, placedBy }) {
  /** @type {Spot[][]} */
  const segments = [];
  let isOpen = false;
  for (const [n, k] of placedBy.entries()) {
    if (!isOpen) segments.push([]);
    segments[segments.length - 1].push(spotAt(north[k], east[k]));
    isOpen = killed[k] === 0;
    if (n % PART === PART - 1) yield "";
  }
  return segments;
}
/** @param {Net} net @returns {Pieces} */
function* featuresOf({ placed }) {
  const feature = (/** @type {object} */ geometry, /** @type {object} */ properties) =>
    JSON.stringify({ type: "Feature", geometry, properties });
  const pointOf = (/** @type {Thing} */ it, /** @type {Place} */ at) =>
    feature({ type: "Point", coordinates: spotAt(at.north, at.east) }, { kind: it.kind,
      name: it.label, state: at.state, first: isoText(at.first), last: isoText(at.last),
      receivers: at.receivers.join(), source: at.source, symbol: at.table + at.code,
      comment: said(at.comment) });
  for (const it of placed)
    for (const part of partsOf(it)) yield part.map(at => pointOf(it, at)).join(",");
  for (const it of placed) {
    const lines = hasMoved(it) ? (yield* segmentsOf(it)).flatMap(cutAtDateLine) : [];
    yield lines.length ? feature({ type: "MultiLineString", coordinates: lines },
      { kind: it.kind, name: it.label }) : "";
  }
}
/** @param {Net} net @returns {Pieces} */
export function* geoJsonOf(net) {
  let begin = '{"type":"FeatureCollection","features":[';
  for (const it of featuresOf(net)) {
    yield it && begin + it;
    if (it) begin = ",";
  }
  yield begin === "," ? "]}\n" : begin + "]}\n";
}
