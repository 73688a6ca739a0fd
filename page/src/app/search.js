// @ts-check
// What of the net is shown in its list and on the map: what the reader looks for.

import { page, shownNow, view, widgets } from "./state.js";
import { haystack } from "../lists/stations.js";
import { byId, choose, write } from "../util/dom.js";
import { count } from "../util/text.js";
import { later } from "../util/task-queue.js";
import { once } from "../util/tasks.js";

/** @typedef {import("../net/things.js").Thing} Thing */

/**
 * What `find` looks in, as long as its thing is there, which is made anew for each drawing.
 * @type {WeakMap<Thing, string>}
 */
const hays = new WeakMap();
/** @param {Thing} it */
function hayOf(it) {
  const text = hays.get(it) ?? haystack(it, page.settings);
  hays.set(it, text);
  return text;
}
/**
 * Makes what `find` looks in beforehand.
 * @param {Thing[]} things
 * @returns {import("../util/tasks.js").Steps<void>}
 */
export function* madeHays(things) {
  for (const it of things) yield hayOf(it);
}
/** Filters the things by what is asked for; that holds for the map too. */
export function sift(stays = false) {
  const { find, kind } = page.choices, words = find.toLowerCase();
  const isOfKind = (/** @type {Thing} */ it) =>
    !kind || (kind === "silent" ? view.isSilent(it) : it.kind === kind);
  const { net: { things } } = shownNow(), { map, lists, layers: { stations } } = widgets();
  page.found = things.filter(it => isOfKind(it) && (!words || hayOf(it).includes(words)));
  write("found", page.found.length === things.length ? ""
    : `${page.found.length} of ${things.length}`);
  lists.things.show(page.found, stays);
  stations.things = page.found.filter(it => it.lastPlace >= 0);
  // they may be painted before that
  later("map", once(() => stations.isPainted || map.paintSoon()));
  const placed = count(stations.things.length, "place");
  byId("map").setAttribute("aria-label", `map of ${placed}; the table has them too`);
  choose("kind", kind);
  // the address is changed once the reader stops
  clearTimeout(page.typing);
  page.typing = setTimeout(() => choose("find", page.choices.find), 300);
}
