// @ts-check
// The book of the files as they are now, and what is drawn of it.

import { drawRepeats, show } from "../app/render.js";
import { page, shownNow } from "../app/state.js";
import { drawFiles, files, notesOf, shiftNotes } from "./file-table.js";
import { options } from "./options.js";
import { enableSaves } from "./own-saves.js";
import { say, tellProgress } from "./progress.js";
import { repeatsBy } from "./receptions.js";
import { Refused, textsOf } from "./runs.js";
import { GREATEST_GAP } from "../util/limits.js";
import { count, messageOf, printable } from "../util/text.js";
import { aMoment } from "../worker/pool.js";

/** @typedef {import("./intake.js").Given} Given */
/** @typedef {import("./runs.js").Made} Made */
/** @typedef {import("./runs.js").Texts} Texts */
/**
 * The texts of the files as they stand, once they are made.
 * @type {Made | null}
 */
let made = null;
export const madeNow = () => made;
let turn = 0, began = 0;
/** Has the time count from now on that the next book takes. */
export function beginTime() {
  began = performance.now();
}

/**
 * By how many seconds the clocks are put right in what is drawn.
 * @type {Map<string, number>}
 */
let drawnShifts = new Map();
/** @param {string} name of a receiver */
export const drawnShiftOf = name => drawnShifts.get(name) || 0;
/** What the page has of the net beside its tables. */
const aboutNet = () => ({ title: options.title, gap: options.gap, live: 0, silent: options.silent,
  maps: [], roster: "", notes: [...files.flatMap(notesOf), ...shiftNotes(drawnShifts)] });
/**
 * Draws these texts, with the options as they stand.
 * @param {Texts & { repeats?: string }} texts
 */
function draw({ rows, messages, read, shifts: by, repeats }) {
  drawnShifts = by;
  return show({ ...aboutNet(), rows, messages, repeats }, read);
}
/** Draws the book again, where there is one, as what the reader chose has changed. */
export function drawAgain() {
  if (made) draw(made);
}
const NONE = new Uint8Array();
/** Draws an empty page. */
export const drawEmpty = (title = options.title) =>
  show({ ...aboutNet(), title, notes: [], rows: NONE, messages: NONE, waits: true });
/**
 * Draws an empty page, and says why it is.
 * @param {string} why
 */
function drawNothing(why) {
  drawEmpty();
  say(why, true);
}
/** What was said of the book last. */
let told = "";
/** Makes the book of the files as they are now, and draws it. */
export async function work() {
  drawFiles(work);
  const good = files.filter(it => it.taken), mine = ++turn, begin = began || performance.now();
  began = 0;
  enableSaves(false);
  made = null;
  tellProgress(1);
  if (!options.isGap)
    return say(`the gap has to be a whole number of seconds, from 1 to ${GREATEST_GAP}`, true);
  if (!good.length) return drawNothing(files.length ? "no file can be read" : "");
  const words = `merging ${count(good.length, "file")}`;
  tellProgress(0.3, words);
  try {
    const texts = await textsOf(good, options.gap,
      share => mine === turn && tellProgress(share, words));
    if (mine !== turn) return; // other files came
    tellProgress(0.9, "drawing");
    await aMoment();
    if (mine !== turn) return;
    await draw(texts);
    if (mine !== turn) return;
    made = { ...texts, countRepeats: counterOf(good, mine) };
    enableSaves(true);
    tellProgress(1);
    const { rows: { length } } = shownNow().all;
    countSoon(made);
    told = `${count(length, "transmission")} of ${count(good.length, "file")}, ` +
      `in ${((performance.now() - begin) / 1000).toFixed(1)} s`;
    say(told);
  } catch (fault) {
    if (mine !== turn) return;
    const file = fault instanceof Refused ? good[fault.input] : null;
    tellProgress(1);
    say((file ? printable(file.name) + ": " : "") + messageOf(fault), true);
  }
}

/** Waits until no other files come, in a page that goes on for longer. */
const wait = { timer: /** @type {ReturnType<typeof setTimeout> | undefined} */ (undefined),
  still: 500, goesOn: 30000 };
/**
 * What counts who repeated whom by all receptions of the files of a book, once, and draws it;
 * nothing is counted where there are other files, or receptions aren't known.
 * @param {Given[]} good
 * @param {number} mine
 */
function counterOf(good, mine) {
  const count = async () => {
    const repeats = await repeatsBy(good, () => mine === turn).catch(() => undefined);
    if (mine !== turn || repeats === undefined || !made) return undefined;
    made.repeats = shownNow().data.repeats = repeats;
    drawRepeats();
    return repeats;
  };
  /** @type {Promise<string | undefined> | undefined} */
  let counted;
  return () => counted ||= count();
}
/**
 * Counts who repeated whom once nothing else is to be done.
 * @param {Made} of
 */
function countSoon(of) {
  clearTimeout(wait.timer);
  wait.timer = setTimeout(of.countRepeats, page.follows ? wait.goesOn : wait.still);
}
/** The book is what it was. */
export function tellAgain() {
  began = 0;
  tellProgress(1);
  say(told);
}
