// @ts-check
// The maps, the roster and the checkpoints that a page has, its own and those that the reader
// brought.

import { callsBefore } from "./dealt.js";
import { page, shownNow, tell, widgets } from "./state.js";
import { readBase } from "../formats/read-vector.js";
import { readCheckpoints } from "../net/checkpoints.js";
import { joined, Names, readRoster } from "../net/roster.js";
import { byId } from "../util/dom.js";
import { messageOf } from "../util/text.js";

/** @type {Record<string, string>} */
const NO_TILES = {};

/** Reads base maps, the roster and checkpoints. */
export function readBrought() {
  const { data } = shownNow(), { layers } = widgets(), bases = [];
  for (const text of data.maps) {
    try {
      bases.push(readBase(text));
    } catch (fault) {
      tell(`a map: ${messageOf(fault)}`, true);
    }
  }
  const rosters = [readRoster(data.roster)], points = readCheckpoints(data.points || "");
  for (const it of page.brought) {
    if (it.base) bases.push(it.base);
    else if (it.roster) rosters.push(it.roster);
    else if (it.points) points.push(...it.points);
  }
  page.points = points;
  page.roster = { list: joined(rosters), faults: rosters[0].faults };
  page.settings.names = new Names(page.roster.list, callsBefore());
  layers.vectors.all = bases;
  readShore(data.coast || "");
  layers.tiles.carry(data.tiles || NO_TILES);
}
/**
 * Takes the fine coast of a page, which says whose it is.
 * @param {string} text
 */
async function readShore(text) {
  byId("fine-coast").hidden = text === "";
  const { map, layers } = widgets();
  if (await layers.coast.shore.read(text)) map.paintSoon();
}
