// @ts-check
// What the reader can save of what is shown, by the names of a menu.

import { messagesCsv, placesCsv } from "./csv.js";
import { geoJsonOf } from "./geojson.js";
import { gpxOf } from "./gpx.js";
import { kmlOf } from "./kml.js";
import { textsOf } from "../net/table-lines.js";

/** @typedef {import("../net/net.js").Net} Net */
/** @typedef {import("./csv.js").Written} Written */
/** @typedef {Generator<string>} Pieces of a text */

/** @param {Net} net @param {{ rows: Uint8Array }} data @returns {Pieces} */
const tableText = (net, { rows }) => textsOf(rows);

/**
 * What can be saved, by the name in the menu: a file's name, its type, and what it holds, in
 * pieces.
 * @type {Record<string, [string, string,
 *   (net: Net, data: { title: string, rows: Uint8Array }, written: Written) => Pieces]>}
 */
export const SAVES = {
  "places (CSV)": ["places.csv", "text/csv", placesCsv],
  "messages (CSV)": ["messages.csv", "text/csv", messagesCsv],
  "places and tracks (GPX)": ["net.gpx", "application/gpx+xml", gpxOf],
  "places and tracks (GeoJSON)": ["net.geojson", "application/geo+json", geoJsonOf],
  "places and tracks (KML)": ["net.kml", "application/vnd.google-earth.kml+xml", kmlOf],
  "table (TSV)": ["table.tsv", "text/tab-separated-values", tableText],
};
/**
 * The whole text of what can be saved.
 * @param {string} name
 * @param {Net} net
 * @param {{ title: string, rows: Uint8Array }} data
 * @param {Written} written
 */
export const savedText = (name, net, data, written) =>
  [...SAVES[name][2](net, data, written)].join("");
