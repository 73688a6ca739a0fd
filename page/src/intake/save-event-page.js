// @ts-check
// The page of the event that is saved, the same that `aprs-net page` makes of these files.

import { marksText } from "../app/dealt.js";
import { page, shownNow, widgets } from "../app/state.js";
import { unpacked } from "../formats/gunzip.js";
import { contents } from "./page-parts.js";
import { boxAround, carriedIn, nearIn } from "./embedded-tiles.js";
import { rosterText } from "../net/roster.js";
import { textsOf } from "../net/table-lines.js";
import { textOf } from "../util/dom.js";

/** @typedef {Generator<string>} Pieces of a text */
const asData = (/** @type {unknown} */ value) => JSON.stringify(value)
  .replaceAll("&", "\\u0026").replaceAll("<", "\\u003c").replaceAll(">", "\\u003e");
/** @type {Record<string, string>} */
const MARKUP = { "&": "&amp;", "<": "&lt;", ">": "&gt;", '"': "&quot;", "'": "&#x27;" };
const asHtml = (/** @type {string} */ text) => text.replace(/[&<>"']/g, it => MARKUP[it]);

/** So many bytes are a megabyte. */
const MEGABYTE = 1e6;

/**
 * The tiles of the reader's own map around the places, in so many megabytes at most.
 * @param {number} most
 */
export async function tilesWithin(most) {
  const { tiles } = widgets().layers;
  const box = boxAround(nearIn(shownNow().net.placed.map(it => it.track)));
  if (tiles.least > tiles.most || !most || !box) return { tiles: {}, leftOut: null };
  return carriedIn(tiles, box, most * MEGABYTE);
}
/** The data of the page, with the maps, the roster and the lines that the reader brought. */
export function dataOf() {
  const { waits, ...data } = shownNow().data, rosters = page.brought.filter(it => it.roster);
  const bases = page.brought.filter(it => it.base);
  data.maps = [...data.maps, ...bases.map(it => it.text)];
  if (rosters.length + (data.roster ? 1 : 0) > 1) data.roster = rosterText(page.roster.list);
  else if (rosters.length) data.roster = rosters[0].text;
  const points = page.brought.filter(it => it.points).map(it => it.text);
  if (points.length) data.points = [data.points, ...points].filter(Boolean).join("\n");
  if (page.own.lines.length) data.lines = page.own.carried;
  if (page.marks?.entries.size) data.marks = marksText();
  return data;
}
/**
 * A table as data, a text.
 * @param {Uint8Array} table
 * @returns {Pieces}
 */
function* tableAsData(table) {
  yield '"';
  for (const it of textsOf(table)) yield asData(it).slice(1, -1);
  yield '"';
}
/**
 * @param {object} data
 * @returns {Pieces}
 */
function* dataPieces(data) {
  let before = "{";
  for (const [name, value] of Object.entries(data)) {
    if (value === undefined) continue;
    yield `${before}${asData(name)}:`;
    if (name === "rows" || name === "messages") yield* tableAsData(value);
    else yield asData(value);
    before = ",";
  }
  yield "}";
}
/**
 * The page of the event, with these tiles of a map.
 * @param {Record<string, string>} tiles
 * @param {ReturnType<typeof dataOf>} data
 * @param {string} shell the page of an event, with marks for what is filled
 * @returns {Pieces}
 */
export function* eventPieces(tiles, data, shell) {
  if (Object.keys(tiles).length) data.tiles = tiles;
  /** @type {Record<string, string>} */
  const values = { TITLE: asHtml(data.title), CONNECT: "", COAST: textOf("coast").trim() };
  const [before, after] = shell.split("@DATA@").map(text =>
    text.replace(/@(TITLE|CONNECT|COAST)@/g, (_, /** @type {string} */ name) => values[name]));
  yield before;
  yield* dataPieces(data);
  yield after;
}
/** The page of an event that is in this one, with marks for what is filled. */
export const readShell = async () =>
  new TextDecoder().decode(await unpacked(contents.event));
/**
 * The data of the page as they are now, with who repeated whom, which may not be counted yet.
 * @param {import("./runs.js").Made | null} made
 */
export async function dataWithRepeats(made) {
  const data = dataOf();
  data.repeats ??= await made?.countRepeats();
  return data;
}
/**
 * The page of the event as a text.
 * @param {import("./runs.js").Made | null} made
 * @param {Record<string, string>} tiles
 */
export const eventPage = async (made, tiles = {}) =>
  [...eventPieces(tiles, await dataWithRepeats(made), await readShell())].join("");
