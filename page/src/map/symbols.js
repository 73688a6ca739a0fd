// @ts-check
// APRS symbols as shapes of our own, drawn in a square of 24 by 24.

import { colourOf } from "./colours.js";
import { svg } from "../util/dom.js";

/** @type {Record<string, string>} */
const SHAPES = {
  aeroplane: "M12 2l1.6 6.6L22 13v2.2l-8.3-2.4-.6 5 2.4 1.8V21L12 20l-3.5 1v-1.4l2.4-1.8-.6-5L2 15.2V13l8.4-4.4z",
  ambulance: "M2 7h13v9H2zM16 9h3l3 3.5V16h-6zM7.5 8.5v2h-2v2h2v2h2v-2h2v-2h-2v-2zM5 17h4a2 2 0 0 1-4 0zM15 17h4a2 2 0 0 1-4 0z",
  antenna: "M12 9a2 2 0 1 1 .01 0zM11.2 10h1.6l4 11h-2.3l-.9-3h-3.2l-.9 3H7.2zM6 2.5L7.4 4a5 5 0 0 0 0 6L6 11.5a7 7 0 0 1 0-9zM18 2.5a7 7 0 0 1 0 9L16.6 10a5 5 0 0 0 0-6z",
  balloon: "M12 2a6.5 6.5 0 0 1 6.5 6.5c0 3.2-2.5 5-4.5 7.5h-4c-2-2.5-4.5-4.3-4.5-7.5A6.5 6.5 0 0 1 12 2zM10 17.5h4V21h-4z",
  bicycle: "M6 11a5 5 0 1 1-.01 0zm0 2.2a2.8 2.8 0 1 0 .01 0zM18 11a5 5 0 1 1-.01 0zm0 2.2a2.8 2.8 0 1 0 .01 0zM9 5h6l3.5 10.5-1.9.6-1.6-4.9-4 5.3H9.5V14.8L8 9.5zM10.3 9.2l.9 3.4L14 9.2z",
  boat: "M2.5 14h19L18 20H6zM10 4h2v8.5h-2zM13 5l6 7.5h-6z",
  bus: "M4 3h16v14H4zM6 5.5V11h12V5.5zM5.5 18H9v3H5.5zM15 18h3.5v3H15zM6 13v2h2.5v-2zM15.5 13v2H18v-2z",
  camp: "M12 4l9.5 16H15l-3-6-3 6H2.5z",
  car: "M2.5 15.5v-4L5 10.5 7.5 6.5h9l2.5 4 2.5 1v4H19a2.5 2.5 0 0 1-5 0h-4a2.5 2.5 0 0 1-5 0zM8.5 8l-1.5 2.5h10L15.5 8z",
  cloud: "M6.5 18.5a4.5 4.5 0 0 1-.6-8.9A6 6 0 0 1 17.3 9a4.8 4.8 0 0 1 .2 9.5z",
  cross: "M9 3.5h6V9h5.5v6H15v5.5H9V15H3.5V9H9z",
  diamond: "M12 2.5L21.5 12 12 21.5 2.5 12z",
  dot: "M12 6.5a5.5 5.5 0 1 1-.01 0z",
  eye: "M12 5.5c4.5 0 8 3.5 10 6.5-2 3-5.5 6.5-10 6.5S4 15 2 12c2-3 5.5-6.5 10-6.5zm0 2.5a4 4 0 1 0 .01 0zm0 2.2a1.8 1.8 0 1 1-.01 0z",
  fire: "M12.5 2c.8 4 5.5 6 5.5 12a6 6 0 0 1-12 0c0-2.5 1.5-4 2.2-6.5C10 9 10.5 10.5 10.5 12c1.8-2.5 2.5-6 2-10z",
  flag: "M5 2.5h2v1.5h12l-3 4.5 3 4.5H7v8.5H5z",
  helicopter: "M3 4h17v1.8h-7.5V8H15c3.5 0 6 2.5 6 5.5V15h-9.5L8.5 11H4V8.5h6.5V5.8H3zM9 17h11v1.8H9z",
  hospital: "M5 3.5h4.5V10h5V3.5H19v17h-4.5V14h-5v6.5H5z",
  house: "M2.5 12L12 3.5 21.5 12H19v8.5h-5V14h-4v6.5H5V12z",
  info: "M10 3.5h4v4h-4zM9 9.5h5v8.5h2v2.5H8V18h2v-6H9z",
  motorcycle: "M5.5 12a4.5 4.5 0 1 1-.01 0zm0 2.5a2 2 0 1 0 .01 0zM18.5 12a4.5 4.5 0 1 1-.01 0zm0 2.5a2 2 0 1 0 .01 0zM13 5h4l2.5 6-2.5 1-1.2-2.8L12 13l-1.5 4.5h-2L9 11l-4-1V8h9.5z",
  person: "M12 2.5a2.7 2.7 0 1 1-.01 0zM8.5 9h7l1 7h-2l-.6 6h-3.8l-.6-6h-2z",
  phone: "M7 2.5h8V1h2v20.5H7zM9 5v5h6V5z",
  sail: "M11 2.5V16H3.5zM13 5.5c3 2.5 5 6 5.5 10.5H13zM3 17.5h18L18 21.5H6z",
  ship: "M2 13.5h20L18.5 20h-13zM6 9h3V5.5h3V9h5v3H6z",
  star: "M12 2.5l2.8 6.4 7 .6-5.3 4.6 1.6 6.8L12 17.3l-6.1 3.6 1.6-6.8-5.3-4.6 7-.6z",
  train: "M6 2.5h12v14l-2 2 1.5 2.5h-2.4L14 19h-4l-1.1 2H6.5L8 18.5l-2-2zM8 5v5h8V5zM8 12.5V15h2.5v-2.5zM13.5 12.5V15H16v-2.5z",
  triangle: "M12 3.5L22 20.5H2z",
  truck: "M1.5 6.5h13V16h-13zM15.5 9H19l3.5 4v3h-7zM4 17h4a2 2 0 0 1-4 0zM15.5 17h4a2 2 0 0 1-4 0z",
  warning: "M10 3h4l-.7 11h-2.6zM10.3 16.5h3.4v3.5h-3.4z",
  x: "M5.5 3.5L12 10l6.5-6.5 2 2L14 12l6.5 6.5-2 2L12 14l-6.5 6.5-2-2L10 12 3.5 5.5z",
};
/**
 * What the codes of the primary table are: a shape, and a word where that isn't its name.
 * @type {Record<string, string>}
 */
const PRIMARY = {
  "!": "warning police", "#": "star digipeater", "$": "phone", "&": "diamond gateway",
  "'": "aeroplane", "(": "antenna satellite station", "+": "cross first aid", ",": "flag scouts",
  "-": "house", ".": "x", "/": "dot", ":": "fire", ";": "camp campground", "<": "motorcycle",
  "=": "train", ">": "car", "?": "info server", "@": "cloud hurricane", A: "cross aid station",
  C: "boat canoe", E: "eye witness", F: "truck tractor", K: "house school", L: "phone computer",
  O: "balloon", P: "car police", R: "bus camper", S: "aeroplane space craft", U: "bus",
  W: "cloud weather service", X: "helicopter", Y: "sail sailing boat", "[": "person",
  "\\": "triangle", "^": "aeroplane", _: "cloud weather station", a: "ambulance", b: "bicycle",
  d: "fire fire station", f: "truck fire engine", g: "aeroplane glider", h: "hospital",
  j: "car jeep", k: "truck", l: "phone laptop", n: "dot node", o: "flag operations centre",
  p: "person dog", r: "antenna repeater", s: "ship motor boat", u: "truck", v: "car van",
  y: "house station with a beam",
};
/** @type {Record<string, string>} */
const ALTERNATE = {
  "!": "warning emergency", "#": "star digipeater", "&": "diamond gateway", "'": "x crash",
  "+": "cross", "-": "house", ".": "dot", ";": "camp picnic place", ">": "car", "?": "info",
  "@": "cloud hurricane", A: "dot", C: "boat coast guard", K: "antenna", N: "flag buoy",
  O: "balloon rocket", W: "cloud", Y: "phone radio", "[": "person", "^": "aeroplane",
  _: "cloud weather station", a: "diamond", h: "house store", i: "flag point of interest",
  k: "car", n: "triangle", r: "house rest rooms", s: "ship", u: "truck", v: "car van",
  x: "x", y: "house",
};

/**
 * The shape of a place's symbol, its word, and the letter that is laid over it.
 * @param {{ table: string, code: string }} place
 */
export function symbolOf(place) {
  const named = (place.table === "/" ? PRIMARY : ALTERNATE)[place.code] || "dot";
  const shape = named.replace(/ .*/, ""), own = named.slice(shape.length + 1);
  const overlay = place.table === "/" || place.table === "\\" ? "" : place.table;
  return { shape, overlay, word: (own || (shape === "dot" ? "" : shape)) +
    (overlay ? ` ${overlay}` : "") };
}
/** @type {Map<string, Path2D>} */
const paths = new Map();
/** @param {string} shape */
export function pathOf(shape) {
  const path = paths.get(shape) || new Path2D(SHAPES[shape]);
  paths.set(shape, path);
  return path;
}
/**
 * A thing's mark for a table: its symbol in the colour of its track.
 * @param {import("../net/things.js").Thing} thing
 * @param {import("../net/rows.js").Place} place
 */
export function markOf(thing, place) {
  const shape = thing.killed ? "x" : symbolOf(place).shape;
  return svg("svg", { class: `mark t${colourOf(thing.key)}`, viewBox: "0 0 24 24",
    "aria-hidden": "true" }, svg("path", { d: SHAPES[shape], "fill-rule": "evenodd" }));
}
