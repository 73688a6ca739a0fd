// @ts-check
// Writes places and tracks as KML.

import { decimal, hasMoved, markup, nowOf, runsOf } from "./places.js";
import { said } from "../util/text.js";
import { isoText } from "../util/time.js";

/** @typedef {import("../net/net.js").Net} Net */
/** @typedef {import("../net/rows.js").Place} Place */
/** @typedef {Generator<string>} Pieces of a text */

/**
 * A description is read as HTML: what came off the air is its text.
 * @param {Net} net @param {{ title: string }} data @returns {Pieces}
 */
export function* kmlOf({ placed }, { title }) {
  const spot = (/** @type {Place} */ it) => `${decimal(it.east)},${decimal(it.north)}`;
  yield '<?xml version="1.0" encoding="UTF-8"?>\n<kml xmlns="http://www.opengis.net/kml/2.2">' +
    `<Document><name>${markup(title)}</name>\n`;
  for (const it of placed)
    yield `<Placemark><name>${markup(it.label)}</name>` +
      `<description>${markup(markup(said(nowOf(it).comment)))}</description>` +
      `<TimeStamp><when>${isoText(nowOf(it).first)}</when></TimeStamp>` +
      `<Point><coordinates>${spot(nowOf(it))}</coordinates></Point></Placemark>\n`;
  for (const it of placed.filter(hasMoved)) {
    yield `<Placemark><name>${markup(it.label)} track</name><MultiGeometry>`;
    yield* runsOf(it, { open: "<LineString><tessellate>1</tessellate><coordinates>",
      close: "</coordinates></LineString>", between: " " }, spot);
    yield "</MultiGeometry></Placemark>\n";
  }
  yield "</Document></kml>\n";
}
