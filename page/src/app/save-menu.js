// @ts-check
// The menu of what can be saved.

import { page, shownNow, tell } from "./state.js";
import { SAVES } from "../formats/exports.js";
import { byId, makeButton, save } from "../util/dom.js";
import { gathered, inSlices } from "../util/tasks.js";

export function drawSaves() {
  byId("saves").lastElementChild?.replaceChildren(...Object.keys(SAVES).map(name =>
    makeButton(name, () => saveNow(name))));
}
/**
 * Saves in slices what the page has, and says so while it takes long.
 * @param {string} name of SAVES
 * @param {string} as the file's name
 */
export async function saveNow(name, as = SAVES[name][0]) {
  const [, type, piecesOf] = SAVES[name], { net, data } = shownNow();
  const written = { lines: page.own.lines, names: page.settings.names };
  const slow = setTimeout(() => tell(`making ${as}`), 300);
  const pieces = await inSlices(gathered(piecesOf(net, data, written)), () => true);
  clearTimeout(slow);
  if (byId("told").textContent === `making ${as}`) tell("");
  if (pieces) save(as, pieces, type);
}
