// @ts-check
// Shows what the news name, also where it is hidden by what the reader chose: a part of the time,
// words that are looked for, a kind, or an earlier moment of the map.

import { showLatest } from "./playback.js";
import { refresh } from "./render.js";
import { sift } from "./search.js";
import { pick, showOne } from "./selection.js";
import { page, shownNow } from "./state.js";
import { byId, choose } from "../util/dom.js";

/** Shows all of the time. */
function showAllTime() {
  page.choices.hours = 0;
  byId("since").value = "0";
  choose("since", "");
  page.turned = true;
  return refresh();
}
/** Shows all things, and not those alone that were looked for. */
function showAllThings() {
  page.choices.find = page.choices.kind = byId("find").value = byId("kind").value = "";
  sift();
}
/**
 * Shows those things alone that the news count.
 * @param {string} kind
 */
function showKind(kind) {
  page.choices.find = byId("find").value = "";
  page.choices.kind = byId("kind").value = kind;
  sift();
}
/**
 * Shows and picks what a word of the news names by its key; or, without one, what it counts, of
 * which some was heard before the time that is shown.
 * @param {{ key?: string, earlier?: string, kind?: string }} of
 */
export async function reveal({ key, earlier, kind }) {
  const isIn = (/** @type {{ key: string }[]} */ list) => list.some(it => it.key === key);
  if (earlier || key && !isIn(shownNow().net.things)) await showAllTime();
  if (kind) showKind(kind);
  if (!key) return;
  if (isIn(shownNow().net.things) && !isIn(page.found)) showAllThings();
  if (page.choices.until !== Infinity) showLatest();
  if (key !== page.picked) pick(key);
  showOne();
}
