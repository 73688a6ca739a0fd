// @ts-check
// What a page that `aprs-net serve` hands out says of the net: whose desk it is, how its sites are,
// and what a desk sets for all.

import { apartText } from "../net/clock-words.js";
import { page, tell } from "./state.js";
import { courseFor } from "../desks/course.js";
import { make, makeButton, momentOf, write } from "../util/dom.js";
import { count, messageOf, printable } from "../util/text.js";

/** @typedef {import("../desks/journal.js").Journal} Journal */
/** @typedef {import("../desks/stream.js").NetTold} NetTold */
/** @typedef {{ net: NetTold, journal: Journal | null, isThere: boolean }} Shown */

/**
 * What is said of the sites: wrong clocks, lines that were refused, and days to come.
 * @param {NetTold} net
 */
export function siteWords({ sites, days }) {
  return Object.entries(sites).flatMap(([name, { clock, refused, day }]) => [
    ...clock ? [`the clock of ${name} is ${apartText(Math.abs(clock))} ` +
      `${clock > 0 ? "ahead" : "behind"}`] : [],
    ...day ? [`${name} has lines of ${day}, which is ${day > (days.at(-1) ?? "")
      ? "to come" : "today by its clock"}`] : [],
    ...refused ? [`${count(refused, "line")} of ${name} refused`] : []]);
}
/**
 * What is said of the connection and of what this desk has written.
 * @param {Shown} of
 */
export function connectionWords({ journal, isThere }) {
  const words = [`${isThere ? "connected" : "not connected"}${
    journal ? ` as desk ${journal.desk}` : ", to read"}`];
  if (!journal) return words;
  const { waiting: { size }, refused, isStored } = journal;
  const entries = (/** @type {number} */ n) => `${n} ${n === 1 ? "entry" : "entries"} of this desk`;
  if (size)
    words.push(`${entries(size)} not sent yet` +
      (isStored ? "" : ", and lost where this page is closed"));
  if (refused) words.push(`${entries(refused)} refused`);
  return words;
}

/**
 * What all pages show of the net now: what a desk has set, or else what the server was begun with.
 * @param {NetTold} net
 * @param {Map<string, string>} own what desks have set
 */
export const nowOf = (net, own) => ({
  title: own.get("title") || net.title,
  silent: own.get("silent") || String(net.silent),
  roster: own.get("roster") ?? net.roster,
  courses: own.has("course") ? [own.get("course") || ""] : net.courses,
  tiles: own.get("tiles") ?? net.tiles[0] ?? "",
});
/** @param {string} words @param {Node[]} fields @param {() => void} run */
const fieldset = (words, fields, run) => make("p", {}, ...fields.flatMap(it => [it, " "]),
  makeButton(words, run));
/** @param {string} label @param {HTMLElement} node */
const labelled = (label, node) => make("label", { textContent: `${label} ` }, node);
/** @param {string} label @param {object} of */
const input = (label, of) => {
  const node = make("input", { ...of });
  return { node, label: labelled(label, node) };
};
/**
 * Sets the roster, the course and the map of tiles for all; each may be none.
 * @param {Journal} journal
 */
function layersOf(journal) {
  const roster = make("textarea", { rows: 4, cols: 40 });
  const course = input("course", { type: "file", accept: ".gpx,.kml,.geojson,.json" });
  const tiles = make("select", {});
  const set = (/** @type {string} */ name, /** @type {string} */ value) =>
    journal.add("setting", { name, value });
  async function setCourse() {
    const file = course.node.files?.[0];
    if (!file) return set("course", "");
    try {
      set("course", courseFor(await file.text()));
      course.node.value = "";
      return tell("");
    } catch (fault) {
      return tell(`${printable(file.name)}: ${messageOf(fault)}`, true);
    }
  }
  let shown = "";
  return { nodes: [
    fieldset("set the roster for all", [labelled("roster", roster)],
      () => set("roster", roster.value)),
    fieldset("set the course for all, or none", [course.label], setCourse),
    fieldset("set the map for all", [labelled("map", tiles)], () => set("tiles", tiles.value)),
  ],
  /** Shows what is set now, where nobody writes something else here. */
  show(/** @type {NetTold} */ net) {
    const now = nowOf(net, journal.settings);
    if (roster.value === shown) roster.value = shown = now.roster;
    if (tiles.options.length === net.tiles.length + 1) return;
    tiles.replaceChildren(...["", ...net.tiles].map(value =>
      make("option", { value, textContent: printable(value) || "none" })));
    tiles.value = now.tiles;
  } };
}
/**
 * Sets the title and the silence, names a station, and notes something to it, for all.
 * @param {Journal} journal
 */
function wordsFor(journal) {
  const title = input("title", { size: 24, maxLength: 200 });
  const silent = input("silent after minutes", { type: "number", min: "1", max: "1000000" });
  const call = input("call", { size: 9, maxLength: 9 });
  const name = input("is called", { size: 16, maxLength: 40 });
  const note = input("note", { size: 40, maxLength: 2000 });
  const set = (/** @type {string} */ of, /** @type {string} */ value) =>
    value && journal.add("setting", { name: of, value });
  const callNow = () => call.node.value.trim().toUpperCase().replace(/-0$/, "");
  return { nodes: [
    fieldset("set for all", [title.label, silent.label], () => {
      set("title", title.node.value.trim());
      if (silent.node.validity.valid) set("silent", silent.node.value);
      title.node.value = silent.node.value = "";
    }),
    fieldset("name it for all", [call.label, name.label], () => {
      if (callNow()) journal.add("name", { call: callNow(), name: name.node.value.trim() });
      name.node.value = "";
    }),
    fieldset("note it for all", [note.label], () => {
      if (callNow() && note.node.value.trim())
        journal.add("note", { call: callNow(), text: note.node.value.trim() });
      note.node.value = "";
    }),
  ],
  show(/** @type {NetTold} */ net) {
    const now = nowOf(net, journal.settings);
    title.node.placeholder = now.title;
    silent.node.placeholder = now.silent;
  } };
}
/**
 * The notes to stations, each with what takes it away.
 * @param {Journal} journal
 */
const notesOf = journal => journal.ofKind("note").map(it => make("li", {},
  momentOf(it.at / 1000, page.settings),
  ` ${printable(String(it.call))}: ${printable(String(it.text))} (${printable(it.desk)}) `,
  makeButton("take away", () => journal.remove(it.id), `take the note to ${it.call} away`)));

/** The panel, once it is made: its notes, and what shows in its fields what is set. */
let panel = /** @type {{ notes: HTMLElement, show: (net: NetTold) => void } | null} */ (null);
/** @param {Journal | null} journal */
function makePanel(journal) {
  const notes = make("ul", {}), told = document.getElementById("told");
  const title = make("summary", { textContent: "this net" });
  const parts = journal ? [wordsFor(journal), layersOf(journal)] : [];
  const own = journal ? [make("details", { id: "desk" }, title,
    make("div", {}, ...parts.flatMap(it => it.nodes), notes))] : [];
  told?.before(make("p", { id: "connection", aria: { role: "status" } }), ...own);
  return { notes, show: (/** @type {NetTold} */ net) => parts.forEach(it => it.show(net)) };
}
/**
 * Draws what is said of the net, and what a desk can set.
 * @param {Shown} of
 */
export function drawNetPanel(of) {
  panel ||= makePanel(of.journal);
  write("connection", [...connectionWords(of), ...siteWords(of.net)].join("; "));
  document.getElementById("connection")?.classList.toggle("warn",
    !of.isThere || siteWords(of.net).length > 0);
  panel.notes.replaceChildren(...of.journal ? notesOf(of.journal) : []);
  panel.show(of.net);
}
