// @ts-check
// What is picked: a station, an object or an item, and all that is known of it.

import { placeFacts } from "../geo/coordinate-formats.js";
import { bearing, distance } from "../geo/sphere.js";
import { far } from "../geo/units.js";
import { graphNode, graphsOf } from "./charts.js";
import { numbersOf } from "./frames.js";
import { detailLines } from "./station-facts.js";
import { markFacts } from "./station-marks.js";
import { NO_FIX, sentText, whereOf } from "./stations.js";
import { cell, heardCell, List, timeCell } from "./table-view.js";
import { markOf, symbolOf } from "../map/symbols.js";
import { wordsOf } from "../net/details.js";
import { channelsOf } from "../net/telemetry.js";
import { air, byId, make, momentOf, replaceIn } from "../util/dom.js";
import { namesText } from "../util/text.js";

/** @typedef {import("../net/things.js").Thing} Thing */
/** @typedef {import("../net/rows.js").Place} Place */
/** @typedef {import("./station-facts.js").Fact} Fact */
/** @typedef {import("../net/settings.js").Settings} Settings */
/** @typedef {{ name: string, vector: number[] }} Origin a place from which distances are told */
/** @typedef {import("./station-marks.js").View & { origin: Origin | null }} View */

/**
 * Draws the panel of a thing, and gives the numbers of its frames; nothing is drawn of none.
 * @param {Thing | undefined} thing
 * @param {{ all: import("../net/net.js").All, net: import("../net/net.js").Net,
 *   from: Thing | undefined, view: View }} of
 */
export function drawPanel(thing, { all, net, from, view }) {
  byId("one").hidden = !thing;
  if (!thing) return [];
  const { settings } = view;
  byId("other-call-label").hidden = thing.kind !== "station";
  byId("one-name").replaceChildren(...(thing.now ? [markOf(thing, thing.now)] : []), thing.label,
    make("small", { textContent: ` ${thing.kind}${thing.killed ? ", killed" : ""}` }));
  const channels = channelsOf(all.messages, thing.name);
  const of = { picks: net.rows, channels, from, view };
  const facts = factsOf(thing, of).flatMap(([name, ...value]) =>
    [make("dt", { textContent: name }), make("dd", {}, ...value)]);
  replaceIn(byId("one-about"), facts, it => it.dataset.alarm || "", byId("one-close"));
  const numbers = numbersOf(thing, net.rows);
  byId("one-graphs").replaceChildren(
    ...graphsOf(all.rows, numbers, channels, settings)
      .map(it => graphNode(it, net, settings)));
  return numbers;
}
/**
 * What is said of a thing: `picks` are the numbers of the rows that are shown, and `from` is what
 * was picked before.
 * @param {Thing} thing
 * @param {{ picks: ArrayLike<number>, channels: import("../net/telemetry.js").Channel[],
 *   from: Thing | undefined, view: View }} of
 */
function factsOf(thing, { picks, channels, from, view }) {
  const { now } = thing, { settings, origin } = view;
  /** @type {Fact[]} */
  const facts = [["last heard", momentOf(thing.last, settings), ` by ${namesText(thing.by)}`],
    ["sent", sentText(thing)], ...markFacts(thing, view)];
  if (thing.unfixed) facts.push(["0, 0", NO_FIX]);
  if (now) facts.push(...factsAt(thing, now, settings));
  if (thing.status) facts.push(["status", air(thing.status)]);
  facts.push(...detailLines(thing, picks, channels, settings));
  if (now && from?.now && from !== thing)
    facts.push(wayFact({ name: from.label, vector: from.now.vector }, now, settings));
  if (now && origin) facts.push(wayFact(origin, now, settings));
  return facts;
}
/**
 * How far a place is from another, and in which direction.
 * @param {Origin} origin @param {Place} now @param {Settings} settings
 * @returns {Fact}
 */
const wayFact = ({ name, vector }, now, settings) => [`from ${name}`,
  `${far(distance(vector, now.vector), settings)}, ` +
    `${Math.round(bearing(vector, now.vector)) % 360}\u00b0`];
/** @param {Thing} thing @param {Place} now @param {Settings} settings */
function factsAt({ kind }, now, settings) {
  const word = symbolOf(now).word, words = wordsOf(now, settings);
  /** @type {Fact[]} */
  const facts = word ? [["symbol", word]] : [];
  facts.push(...placeFacts(now.north, now.east));
  if (words.length) facts.push(["says", words.join(", ")]);
  if (now.comment) facts.push(["comment", air(now.comment)]);
  if (kind !== "station") facts.push(["put by", settings.names.shown(now.source)]);
  return facts;
}
/**
 * A list of places, by the numbers of their rows.
 * @param {HTMLElement} box
 * @param {{ rows: import("../net/rows.js").Rows, settings: Settings }} view
 */
export function placeList(box, view) {
  const place = (/** @type {number} */ k) => view.rows.placeOf(k);
  const row = (/** @type {number} */ k) => {
    const it = place(k);
    return make("tr", {}, timeCell(it.first, view.settings),
      cell("where", ...whereOf(it, view.settings)),
      cell("about", wordsOf(it, view.settings).join(", ")), cell("about", air(it.comment)),
      heardCell(it.receivers));
  };
  return new List(box, { id: "places", caption: "places", row, none: "no place", columns: [
    { title: "heard", number: true, value: (/** @type {number} */ k) => view.rows.first[k] },
    { title: "place", value: (/** @type {number} */ k) => view.rows.north[k] },
    { title: "says", value: (/** @type {number} */ k) => wordsOf(place(k), view.settings).join() },
    { title: "comment", value: (/** @type {number} */ k) => place(k).comment },
    { title: "by", value: (/** @type {number} */ k) => place(k).receivers.join() }] });
}
