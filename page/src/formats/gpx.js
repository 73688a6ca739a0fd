// @ts-check
// Writes places and tracks as GPX.

import { decimal, hasMoved, markup, nowOf, runsOf } from "./places.js";
import { said } from "../util/text.js";
import { isoText } from "../util/time.js";

/** @typedef {import("../net/net.js").Net} Net */
/** @typedef {import("../net/rows.js").Place} Place */
/** @typedef {Generator<string>} Pieces of a text */

/** Degrees east for GPX, whose longitudes end below 180. */
const belowDateLine = (/** @type {number} */ east) => decimal(east).replace(/^180\./, "-180.");

/** @param {Net} net @param {{ title: string }} data @returns {Pieces} */
export function* gpxOf({ placed }, { title }) {
  const at = (/** @type {Place} */ it) => `lat="${decimal(it.north)}" ` +
    `lon="${belowDateLine(it.east)}"`;
  const time = (/** @type {Place} */ it) => `<time>${isoText(it.first)}</time>`;
  yield '<?xml version="1.0" encoding="UTF-8"?>\n<gpx version="1.1" creator="aprsbook" ' +
    'xmlns="http://www.topografix.com/GPX/1/1">\n' +
    `<metadata><name>${markup(title)}</name></metadata>\n`;
  for (const it of placed)
    yield `<wpt ${at(nowOf(it))}>${time(nowOf(it))}<name>${markup(it.label)}</name>` +
      `<desc>${markup(said(nowOf(it).comment))}</desc><type>${it.kind}</type></wpt>\n`;
  for (const it of placed.filter(hasMoved)) {
    yield `<trk><name>${markup(it.label)}</name>`;
    yield* runsOf(it, { open: "<trkseg>", close: "</trkseg>" },
      one => `<trkpt ${at(one)}>${time(one)}</trkpt>`);
    yield "</trk>\n";
  }
  yield "</gpx>\n";
}
