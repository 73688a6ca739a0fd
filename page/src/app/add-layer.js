// @ts-check
// What the reader brings to the page: maps, a roster, checkpoints, and lines of operators.

import { readBrought } from "./brought.js";
import { refresh } from "./render.js";
import { page, tell, widgets } from "./state.js";
import { writtenIn } from "../formats/file-kinds.js";
import { readingBase } from "../formats/read-vector.js";
import { readCheckpoints } from "../net/checkpoints.js";
import { faultWords, readRoster } from "../net/roster.js";
import { inSlices } from "../util/tasks.js";
import { count, messageOf, printable } from "../util/text.js";

/** @typedef {import("./state.js").Brought} Brought */

/** A text of more letters is read in slices, and so many places are said at once. */
const LONG = 2 ** 20, SAID = 2 ** 16;
/**
 * Steps that say how many places were read so far.
 * @template T
 * @param {Generator<number, T>} steps
 * @param {string} name
 * @returns {Generator<unknown, T>}
 */
function* counting(steps, name) {
  let places = 0, next = SAID;
  for (;;) {
    const it = steps.next();
    if (it.done) return it.value;
    places += it.value;
    if (places >= next) {
      tell(`${name}: reading, ${places.toLocaleString("en")} places so far`);
      next += SAID;
    }
    yield;
  }
}
/**
 * Reads a base map; a long one so that the page says how far it is, and doesn't stand still.
 * @param {string} name
 * @param {string} text
 */
async function readMap(name, text) {
  const own = printable(name);
  if (text.length > LONG) {
    tell(`${own}: reading`);
    await new Promise(done => setTimeout(done)); // so that it is seen
  }
  return await inSlices(counting(readingBase(text), own), () => true) || null;
}
/**
 * What a text is: a base map, checkpoints or a roster; throws where it is none.
 * @param {string} name
 * @param {string} text
 */
async function readText(name, text) {
  if (/^\s*[<{[]/.test(text)) return { base: await readMap(name, text) };
  const points = readCheckpoints(text);
  if (points.length) return { points };
  const roster = readRoster(text);
  if (!roster.list.length) throw new Error("no map and no list of calls");
  return { roster };
}
/**
 * Takes a base map, checkpoints or a roster, in place of one of its name; says so where it is none.
 * @param {string} name
 * @param {string} text
 * @param {string} spelling how it was spelled, where that is to be said
 */
export async function bring(name, text, spelling = "") {
  /** @type {Brought} */
  const it = { name, text, spelling, base: null, roster: null, points: null, fault: "" };
  try {
    Object.assign(it, await readText(name, text));
  } catch (fault) {
    it.fault = messageOf(fault);
  }
  const brought = [...page.brought.filter(one => one.name !== name), it];
  tell(brought.map(toldOf).reverse().join("; "), brought.some(isBad));
  put(brought);
}
/**
 * Takes away what was brought by names of this form.
 * @param {RegExp} form
 */
export function takeAway(form) {
  const left = page.brought.filter(it => !form.test(it.name));
  if (left.length < page.brought.length) put(left);
}
/**
 * Puts what was brought by a name before all else.
 * @param {string} name
 */
export function putFirst(name) {
  const isIt = (/** @type {Brought} */ it) => it.name === name;
  if (page.brought.findIndex(isIt) > 0)
    put([...page.brought.filter(isIt), ...page.brought.filter(it => !isIt(it))]);
}
/** @param {Brought[]} brought */
function put(brought) {
  page.brought = brought;
  readBrought();
  refresh();
}
const isBad = (/** @type {Brought} */ { fault, roster }) =>
  fault !== "" || roster !== null && roster.faults.length > 0;
/**
 * What came of something that was brought.
 * @param {Brought} it
 */
function toldOf({ name, roster, points, base, fault, spelling }) {
  const words = points ? [count(points.length, "checkpoint")]
    : roster ? [count(roster.list.length, "call"), ...faultWords(roster.faults)]
    : [base && !base.lines.length && !base.points.length ? "a map of nothing" : "a map"];
  return `${printable(name)}: ${fault || [...words, spelling].filter(Boolean).join(", ")}`;
}
/** @param {File[]} files */
export async function bringAll(files) {
  for (const it of files) {
    const fault = await bringBaseMap(it);
    const bytes = fault === null ? await it.arrayBuffer().catch(() => null) : null;
    const written = bytes && writtenIn(new Uint8Array(bytes));
    if (written) await bring(it.name, written.text, written.spelling);
    else if (fault !== "")
      tell(`${printable(it.name)}: ${fault || "it is gone, or can\u2019t be read"}`, true);
  }
}
/**
 * Takes a map of tiles or a picture of one; null where it is none, or why it can't be drawn.
 * @param {File} file
 */
export async function bringBaseMap(file) {
  try {
    return await widgets().sources.take(file) ? "" : null;
  } catch (fault) {
    return `can\u2019t be drawn as a map: ${messageOf(fault)}`;
  }
}
/** Takes all away that the reader brought. */
export function takeAllAway() {
  page.brought = [];
  widgets().sources.clear();
  tell("");
  readBrought();
  refresh();
}
/**
 * Has the lines of operators in the pages of events asked for.
 * @param {{ name: string, lines: import("../ics309/own-lines.js").Line[] }[]} pages
 */
export function bringLines(pages) {
  const some = pages.filter(it => it.lines.length);
  for (const { name, lines } of some) page.own.offer(name, lines);
  tell(pages.map(({ name, lines }) => `${printable(name)}: ${lines.length
    ? `${count(lines.length, "line")} of another desk, which the form ICS-309 offers`
    : "no lines for ICS-309"}`).join("; "));
  widgets().form.draw();
}
