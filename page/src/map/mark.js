// @ts-check
// The mark of a thing on the map, and in which order marks lie above one another.

/** @typedef {import("../net/things.js").Thing} Thing */
/** @typedef {import("../net/rows.js").Place} Place */
/** @typedef {{ thing: Thing, place: Place, picked: boolean, colour: string, x: number,
 *   y: number }} Mark */

/** @type {Record<string, number>} */
const RANK = { item: 1, object: 2, station: 3 };
/**
 * In which order marks are drawn: stations lie above the rest, who is in need above these, and what
 * is picked above all.
 * @param {Mark} it
 */
export const rankOf = it => it.picked ? 5 : it.place.state === "killed" ? 0
  : it.thing.urgent ? 4 : RANK[it.thing.kind];
/**
 * Marks by their colours.
 * @param {Mark[]} marks
 */
export function byColour(marks) {
  /** @type {Map<string, Mark[]>} */
  const by = new Map();
  for (const it of marks) {
    const list = by.get(it.colour);
    if (list) list.push(it);
    else by.set(it.colour, [it]);
  }
  return by;
}
