// @ts-check
// Reads GPX, KML and GeoJSON: lines and named points. A long course is read in steps, each of which
// says how many places it took.

import { vectorOf } from "../geo/sphere.js";
import { atOnce } from "../util/tasks.js";

/** @typedef {{ vector: number[], name: string }} Point a named place, as a vector */
/** @typedef {{ lines: Float64Array[], points: Point[] }} Base lines of vectors, end to end */
/**
 * Steps that come to a value; each gives a number of places.
 * @template T
 * @typedef {Generator<number, T>} Steps
 */

/** After so many places there is a step. */
const STEP = 4096;
/** Collections of GeoJSON lie in each other so deep at most. */
const DEEPEST = 100;

/**
 * Reads the lines and named points of a GPX, KML or GeoJSON text, in steps; throws where it is
 * none.
 * @param {string} text
 * @returns {Steps<Base>}
 */
export function readingBase(text) {
  const readXml = /<([\w-]+:)?kml[\s>]/.test(text) ? readKml : readGpx;
  return (/^\s*</.test(text) ? readXml : readGeoJson)(text);
}
/**
 * The same at once.
 * @param {string} text
 */
export const readBase = text => atOnce(readingBase(text));
/** @param {number} north @param {number} east */
function spotOf(north, east) {
  if (!(Math.abs(north) <= 90 && Math.abs(east) <= 540)) throw new Error("a place off the earth");
  return vectorOf(north, east);
}
/**
 * A line of places.
 * @template T
 * @param {T[]} list
 * @param {(it: T) => number[]} spot
 * @returns {Steps<Float64Array>}
 */
function* lineOf(list, spot) {
  const line = new Float64Array(3 * list.length);
  for (let k = 0; k < list.length; k++) {
    line.set(spot(list[k]), 3 * k);
    if (k % STEP === STEP - 1) yield STEP;
  }
  yield list.length % STEP;
  return line;
}

// ---- XML

/** What is said of XML that a browser doesn't parse: some take only so many elements in another. */
const faultOf = (/** @type {string} */ said) => /\bdep(?:th|ly)\b|\bnest/i.test(said)
  ? "its elements lie too deep in each other for this browser" : "not well-formed XML";
/**
 * The elements of an XML text, by name.
 * @param {string} text
 */
function elementsOf(text) {
  const tree = new DOMParser().parseFromString(text, "application/xml");
  const fault = tree.querySelector("parsererror");
  if (fault) throw new Error(faultOf(fault.textContent || ""));
  return (/** @type {string} */ name, /** @type {Document | Element} */ of = tree) =>
    [...of.getElementsByTagNameNS("*", name)];
}
/** @param {Element} it */
const nameOf = it => [...it.children].find(one => one.localName === "name")?.textContent || "";
/** @param {string} text @returns {Steps<Base>} */
function* readGpx(text) {
  if (!/<([\w-]+:)?gpx[\s>]/.test(text)) throw new Error("no GPX");
  const all = elementsOf(text), degrees = (/** @type {Element} */ it, /** @type {string} */ name) =>
    Number.parseFloat(it.getAttribute(name) || "");
  const spot = (/** @type {Element} */ it) => spotOf(degrees(it, "lat"), degrees(it, "lon"));
  const lines = [];
  for (const it of [...all("trkseg"), ...all("rte")])
    lines.push(yield* lineOf([...it.children].filter(one => /^(trkpt|rtept)$/.test(one.localName)),
      spot));
  const points = all("wpt").map(it => ({ vector: spot(it), name: nameOf(it) }));
  return { lines: lines.filter(it => it.length), points };
}
/** The places of KML, such as `-3.5,54.5,100 -3.6,54.6`. */
const wordsOf = (/** @type {Element} */ it) => (it.textContent || "").trim().split(/\s+/);
/** @param {string} text @returns {Steps<Base>} */
function* readKml(text) {
  const all = elementsOf(text);
  /** @type {Base} */
  const base = { lines: [], points: [] };
  const spot = (/** @type {string} */ word) => {
    const [east, north] = word.split(",").map(Number);
    return spotOf(north, east);
  };
  for (const mark of all("Placemark")) {
    for (const it of all("coordinates", mark)) {
      if (it.parentElement?.localName === "Point")
        base.points.push({ vector: spot(wordsOf(it)[0]), name: nameOf(mark) });
      else base.lines.push(yield* lineOf(wordsOf(it), spot));
    }
    const track = all("coord", mark).map(wordsOf);
    if (track.length)
      base.lines.push(yield* lineOf(track, ([east, north]) => spotOf(Number(north), Number(east))));
  }
  return base;
}

// ---- GeoJSON (RFC 7946)

/**
 * A list, as the coordinates of a kind have to be.
 * @param {unknown} it
 * @returns {any[]}
 */
function listOf(it) {
  if (!Array.isArray(it)) throw new Error("no GeoJSON: a list is missing in it");
  return it;
}
/** @param {any} it a position of GeoJSON */
function positionOf(it) {
  const [east, north] = listOf(it).map(one => typeof one === "number" ? one : NaN);
  return spotOf(north, east);
}
/** @param {unknown} name */
const plainName = name => typeof name === "string" || typeof name === "number" ? `${name}` : "";
/** @param {string} text @returns {Steps<Base>} */
function* readGeoJson(text) {
  /** @type {Base} */
  const base = { lines: [], points: [] };
  /** @param {unknown} list @returns {Steps<void>} */
  function* line(list) {
    base.lines.push(yield* lineOf(listOf(list), positionOf));
  }
  /** @param {unknown} list @returns {Steps<void>} */
  function* lines(list) {
    for (const it of listOf(list)) yield* line(it);
  }
  const point = (/** @type {unknown} */ it, /** @type {string} */ name) => {
    base.points.push({ vector: positionOf(it), name });
  };
  /** @param {any} it @param {string} name @param {number} depth @returns {Steps<void>} */
  function* take(it, name, depth) {
    if (depth > DEEPEST) throw new Error("its collections lie too deep in each other");
    const own = it?.coordinates;
    if (it?.type === "Point") point(own, name);
    else if (it?.type === "MultiPoint") for (const one of listOf(own)) point(one, name);
    else if (it?.type === "LineString") yield* line(own);
    else if (it?.type === "MultiLineString" || it?.type === "Polygon") yield* lines(own);
    else if (it?.type === "MultiPolygon") for (const one of listOf(own)) yield* lines(one);
    else if (it?.type === "GeometryCollection")
      for (const one of listOf(it.geometries)) yield* take(one, name, depth + 1);
    else if (it?.type === "FeatureCollection")
      for (const one of listOf(it.features)) yield* take(one, "", depth + 1);
    else if (it?.type !== "Feature") throw new Error("no GeoJSON");
    else if (it.geometry) yield* take(it.geometry, plainName(it.properties?.name), depth + 1);
  }
  yield* take(JSON.parse(text), "", 0);
  return base;
}
