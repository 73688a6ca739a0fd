// @ts-check
// Writes places and messages as CSV, for spreadsheets.

import { decimal, partsOf } from "./places.js";
import { entriesOf } from "../net/log-entries.js";
import { said } from "../util/text.js";
import { isoText } from "../util/time.js";

/** @typedef {import("../net/net.js").Net} Net */
/** @typedef {import("../net/things.js").Thing} Thing */
/** @typedef {import("../net/rows.js").Place} Place */
/**
 * What an operator wrote, and who is known.
 * @typedef {{ lines: import("../net/log-entries.js").Line[],
 *   names: import("../net/roster.js").Names }} Written
 */
/** @typedef {Generator<string>} Pieces of a text */

/** How formulas begin, in wide letters too, as spreadsheets of East Asia take them. */
// after blanks of all kinds, also those without a width
const FORMULA = new RegExp("^'*[ \\u00a0\\u00ad\\u061c\\u115f\\u1160\\u1680\\u180e\\u2000-\\u200f" +
  "\\u2028-\\u202f\\u205f-\\u206f\\u3000\\u3164\\ufeff\\uffa0]*" +
  "[=+\\-@\\t\\r\\n\\uff1d\\uff0b\\uff0d\\uff20]");
/**
 * A text off the air for a spreadsheet, which must not take it as a formula.
 * @param {string} text
 */
function csvText(text) {
  const isFormula = FORMULA.test(text) && !/^-?[0-9]+(\.[0-9]+)?$/.test(text);
  const safe = isFormula ? "'" + text : text;
  return /[",\n\r]/.test(safe) ? `"${safe.replaceAll('"', '""')}"` : safe;
}
/** @param {(string | number)[][]} rows */
const csvOf = rows => rows.map(row =>
  row.map(it => typeof it === "number" ? String(it) : csvText(it)).join(",") + "\n").join("");
const COLUMNS = ["kind", "name", "state", "first", "last", "receivers", "source", "lat", "lon",
  "ambiguity", "symbol", "course", "speed_knots", "altitude_m", "comment"];
const valueOf = (/** @type {number | undefined} */ it) => it === undefined ? "" : it;
/** @param {Thing} it @param {Place} at */
const placeRow = (it, at) => [it.kind, said(it.name), at.state, isoText(at.first), isoText(at.last),
  at.receivers.join(" "), at.source, Number(decimal(at.north)), Number(decimal(at.east)),
  at.compressed ? "c" : at.ambiguity, at.table + at.code, valueOf(at.course), valueOf(at.knots),
  valueOf(at.metres), said(at.comment)];
/**
 * Each place of each thing, as rows.
 * @param {Net} net
 * @returns {Pieces}
 */
export function* placesCsv({ placed }) {
  yield csvOf([COLUMNS]);
  for (const it of placed)
    for (const part of partsOf(it)) yield csvOf(part.map(at => placeRow(it, at)));
}
/**
 * Messages; where the roster has names, these too, in columns of their own.
 * @param {Net} net
 * @param {unknown} _
 * @param {Written} written
 * @returns {Pieces}
 */
export function* messagesCsv(net, _, { lines, names }) {
  const isNamed = names.hasNames;
  yield csvOf([["time", "from", "number", "to", "message", "state",
    ...isNamed ? ["from_name", "to_name"] : []]]);
  for (const it of entriesOf(net, lines)) {
    const [to, text] = it.own ? [it.to, it.text] : [said(it.to), said(it.text)];
    const named = it.own ? ["", ""] : [names.nameOf(it.from), names.nameOf(it.to)];
    yield csvOf([[isoText(it.at), it.from, it.id, to, text, it.state, ...isNamed ? named : []]]);
  }
}
