// @ts-check
// What files of places have in common: their pieces, runs, and texts for XML.

/** @typedef {import("../net/things.js").Thing} Thing */
/** @typedef {import("../net/rows.js").Place} Place */
/** @typedef {Generator<string>} Pieces of a text */

export const markup = (/** @type {string} */ text) => text
  .replace(/[&<>"']/g, it => `&#${it.charCodeAt(0)};`)
  .replace(/[^\t\n\r -\ud7ff\ue000-\ufffd\u{10000}-\u{10ffff}]/gu, "");
export const decimal = (/** @type {number} */ value) => value.toFixed(7);

/** So many places are a piece. */
export const PART = 512;
/**
 * The places of a thing, some at a time; none is kept.
 * @param {Thing} thing
 * @returns {Generator<Place[]>}
 */
export function* partsOf({ rows, placedBy }) {
  for (let at = 0; at < placedBy.length; at += PART)
    yield placedBy.slice(at, at + PART).map(k => rows.placeOf(k));
}
export function hasMoved(/** @type {Thing} */ { rows: { north, east }, placedBy }) {
  const [first, ...others] = placedBy;
  return others.some(k => north[k] !== north[first] || east[k] !== east[first]);
}
/**
 * The runs of a thing's places as text, each but the last ended by a kill.
 * @param {Thing} thing
 * @param {{ open: string, close: string, between?: string }} marks of a run, and between two places
 * @param {(place: Place) => string} textOf
 * @returns {Pieces}
 */
export function* runsOf(thing, { open, close, between = "" }, textOf) {
  let isOpen = false;
  for (const part of partsOf(thing)) {
    let text = "";
    for (const place of part) {
      text += (isOpen ? between : open) + textOf(place);
      isOpen = place.state !== "killed";
      if (!isOpen) text += close;
    }
    yield text;
  }
  if (isOpen) yield close;
}
/** Where something now is, of what has a place. */
export const nowOf = (/** @type {Thing} */ it) => /** @type {Place} */ (it.now);
