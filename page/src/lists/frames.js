// @ts-check
// What a thing sent, or what was sent of it, as it came: each transmission with all that the table
// tells of it.

import { cell, heardCell, List, timeCell } from "./table-view.js";
import { air, letters, make } from "../util/dom.js";
import { said } from "../util/text.js";

/** @typedef {import("../net/rows.js").Rows} Rows */

/** The columns that have a place of their own in the list, or say what others say too. */
const SHOWN = new Set(["kind", "first", "last", "receivers", "receiver", "source", "destination",
  "via", "text"]);

/**
 * The numbers of the rows of a thing, by their first moments: those that it sent, or that place it.
 * @param {{ rows: Rows, key: string }} thing
 * @param {ArrayLike<number>} picks
 */
export function numbersOf({ rows, key }, picks) {
  const it = rows.things.indexOf(key), numbers = [];
  for (let n = 0; n < picks.length; n++) {
    const k = picks[n];
    if (rows.station[k] === it || rows.thing[k] === it) numbers.push(k);
  }
  return numbers;
}
/**
 * The way that a frame took, as a monitor heads it.
 * @param {Record<string, string>} it
 */
export const wayOf = it =>
  `${it.source}>${it.destination}${it.via && it.via !== "-" ? `,${it.via}` : ""}` +
  (it.gate ? ` (by ${it.gate})` : "");
/**
 * What else the table tells of a row, by the names of the columns.
 * @param {Record<string, string>} it
 */
export const restOf = it => Object.entries(it)
  .filter(([name, value]) => value && !SHOWN.has(name))
  .map(([name, value]) => `${name} ${said(value)}`).join(", ");

/**
 * A list of rows, by their numbers.
 * @param {HTMLElement} box
 * @param {{ rows: Rows, settings: import("../net/settings.js").Settings }} view
 */
export function frameList(box, view) {
  const record = (/** @type {number} */ k) => view.rows.record(k);
  const row = (/** @type {number} */ k) => {
    const it = record(k), rest = restOf(it);
    return make("tr", {}, timeCell(view.rows.first[k], view.settings),
      heardCell(view.rows.lists[view.rows.heard[k]]),
      cell("way", letters(said(wayOf(it)))), cell("kind", it.kind),
      cell("about", air(it.text), " ", rest ? make("small", {}, letters(rest)) : null));
  };
  return new List(box, { id: "frames", caption: "transmissions", row, none: "nothing", columns: [
    { title: "heard", number: true, value: (/** @type {number} */ k) => view.rows.first[k] },
    { title: "by", value: (/** @type {number} */ k) => record(k).receivers },
    { title: "way", value: (/** @type {number} */ k) => wayOf(record(k)) },
    { title: "kind", value: (/** @type {number} */ k) => record(k).kind },
    { title: "text, and what it says", value: (/** @type {number} */ k) => record(k).text }] });
}
