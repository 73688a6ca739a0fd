// @ts-check
// How many transmissions there were in each part of the time, of all and of each station.

import { cell, List, rowHead } from "./table-view.js";
import { nameIn } from "../net/rows.js";
import { make, svg } from "../util/dom.js";
import { eachSince } from "../util/tasks.js";
import { count } from "../util/text.js";
import { dateText, hourText } from "../util/time.js";

/** @typedef {import("../net/net.js").Net} Net */
const PARTS = 144;

/**
 * A strip for all and one for each station, as rows of a list.
 * @param {HTMLElement} box
 * @param {import("../net/rows.js").Rows} rows
 * @param {Net} net
 * @param {{ sent: Map<string, number>, clock: import("../util/time.js").Clock }} of how many
 *   transmissions each station sent, and how moments are written
 * @returns {import("../util/tasks.js").Steps<List<string>>}
 */
export function* timelineList(box, rows, net, { sent, clock }) {
  const width = Math.max(net.end - net.begin, 1) / PARTS, all = new Uint32Array(PARTS);
  /** @type {Uint32Array[]} */
  const by = [];
  const counts = new Map([["all", all]]), sentBy = (/** @type {string} */ it) => sent.get(it) || 0;
  yield* eachSince(rows, net.since, k => {
    const part = Math.min(Math.floor((rows.first[k] - net.begin) / width), PARTS - 1);
    all[part]++;
    (by[rows.station[k]] ||= new Uint32Array(PARTS))[part]++;
  });
  by.forEach((parts, n) => counts.set(nameIn(rows.things[n]), parts));
  const row = (/** @type {string} */ name) => make("tr", {},
    rowHead(name),
    cell("strip", stripOf(name, counts.get(name) || all)),
    cell("num", sentBy(name).toLocaleString("en")));
  const list = new List(box, { id: "timeline", caption: "when", row, columns: [
    { title: "station", value: it => it }, { title: hoursOf(net, clock) },
    { title: "sent", number: true, value: sentBy }] });
  const sources = [...counts.keys()].filter(it => it !== "all").sort();
  list.show(sources.length ? ["all", ...sources] : []);
  return list;
}
/**
 * The hours above the strips: as many as there is room for.
 * @param {Net} net
 * @param {import("../util/time.js").Clock} clock
 */
function hoursOf(net, clock) {
  const days = net.end - net.begin > 86400;
  const marks = [0, 0.25, 0.5, 0.75, 1].map(share => net.begin + (net.end - net.begin) * share);
  return make("span", { className: "hours" }, ...marks.map(it => make("span", {
    textContent: (days ? `${dateText(it, clock).slice(5)} ` : "") + hourText(it, clock) })));
}
/** @param {string} name @param {Uint32Array} parts */
function stripOf(name, parts) {
  let path = "", total = 0;
  const most = parts.reduce((a, b) => Math.max(a, b), 0);
  parts.forEach((n, part) => {
    total += n;
    if (n) path += `M${part} 20v-${(4 + 16 * n / most).toFixed(1)}h1V20z`;
  });
  return svg("svg", { viewBox: `0 0 ${PARTS} 20`, preserveAspectRatio: "none", role: "img",
    "aria-label": `${name}: ${count(total, "transmission")}` }, svg("path", { d: path }));
}
