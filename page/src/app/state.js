// @ts-check
// What the page has of the net, and what the reader chose.

import { Alarm } from "./alarm-sound.js";
import { Looked } from "./seen.js";
import { OwnLines } from "../ics309/own-lines.js";
import { homeOf, otherCallOf, silenceOf } from "../net/alarms.js";
import { settingsOf } from "../net/settings.js";
import { tableOf } from "../net/table-lines.js";
import { byId } from "../util/dom.js";

/**
 * @template T
 * @typedef {import("../lists/table-view.js").List<T>} List
 */
/** @typedef {import("../net/net.js").All} All */
/** @typedef {import("../net/net.js").Net} Net */
/** @typedef {import("../net/things.js").Thing} Thing */
/** @typedef {import("../net/message-table.js").Message} Message */
/** @typedef {import("../net/roster.js").Roster} Roster */
/** @typedef {import("../desks/journal.js").Journal} Journal */
/** @typedef {import("../net/checkpoints.js").Checkpoint} Checkpoint */
/**
 * What a page is made of: its title; the gap in seconds and the silence in minutes; after how many
 * seconds it is loaded again, or 0; maps, roster and notes as texts; two tables of a book, in
 * bytes; a fine coast, tiles of a map, the operator's own lines and marks of what is dealt with,
 * where it has some; checkpoints as a text; who repeated whom, by all receptions; whether it waits
 * for logs.
 * @typedef {{ title: string, gap: number, silent: number, live: number, maps: string[],
 *   roster: string, notes: string[], rows: Uint8Array, messages: Uint8Array, coast?: string,
 *   tiles?: Record<string, string>, lines?: unknown, marks?: string, points?: string,
 *   repeats?: string, waits?: boolean }} Data
 */
/**
 * What is drawn next: its data, the columns of its rows where they are made already, and what was
 * read of them.
 * @typedef {{ data: Data, read: import("../net/table-reader.js").Read | null,
 *   all: All | null }} Next
 */
/** @typedef {{ data: Data, all: All, net: Net }} Shown what is drawn: data, and a net of them */
/**
 * What of the net is shown: of so many last hours or 0 for all, what is found by these words and of
 * this kind, in which colours, and the moment of the map; whose messages come first; and from where
 * distances are told, as it is written.
 * @typedef {{ hours: number, find: string, kind: string, call: string, origin: string,
 *   colours: import("../map/colours.js").Way | "", until: number }} Choices
 */
/**
 * A map, a roster or checkpoints that the reader brought, or why it is none; and what is said of
 * its spelling.
 * @typedef {{ name: string, text: string, spelling: string,
 *   base: import("../formats/read-vector.js").Base | null, roster: Roster | null,
 *   points: Checkpoint[] | null, fault: string }} Brought
 */
/**
 * The lists of the page; the last ones are made anew for each net.
 * @typedef {{ messages: List<Message>, bulletins: List<Message>, things: List<Thing>,
 *   places: List<number>, frames: List<number>,
 *   receivers: List<import("../net/receivers.js").Receiver>,
 *   roster: List<import("../lists/stations.js").Waited>, heard?: List<string>,
 *   repeated?: List<string>, timeline?: List<string>,
 *   passed?: List<import("../lists/passed.js").Line>,
 *   visits?: List<import("../net/checkpoints.js").Visit & { turn: number }> }} Lists
 */
/** @typedef {ReturnType<typeof import("./map-layers.js").makeLayers>} Layers those of the map */
/**
 * What the page is drawn into.
 * @typedef {{ map: import("../map/map.js").NetMap, layers: Layers, lists: Lists,
 *   form: import("../ics309/form.js").Form,
 *   sources: import("../map/layers/tile-sources.js").TileSources }} Widgets
 */
/**
 * `shown` and `widgets` are null until something is drawn, and until the page has begun. `next` is
 * what is drawn, or was drawn last; `turn` is its drawing, and `drawn` ends with it. The page
 * `follows` logs, or `grows` where one was given again.
 * @typedef {{ settings: import("../net/settings.js").Settings, choices: Choices,
 *   shown: Shown | null, widgets: Widgets | null, next: Next | null,
 *   drawn: Promise<void> | undefined, turn: object | null, roster: Roster, points: Checkpoint[],
 *   found: Thing[],
 *   brought: Brought[], playing: ReturnType<typeof setInterval> | undefined,
 *   typing: ReturnType<typeof setTimeout> | undefined, alarm: Alarm,
 *   clockOf: import("../lists/stations.js").ClockOf | null, own: OwnLines, looked: Looked,
 *   turned: boolean, follows: boolean, grows: boolean, picked: string | null, from: string | null,
 *   journal: Journal | null, marks: Journal | null }} Page what desks share is in a journal, which
 *   has the marks too; those of a page by itself have one of their own
 */

/**
 * The data that stand in a page of an event, where tables are texts.
 * @param {string} json @returns {Data}
 */
export function dataIn(json) {
  const data = JSON.parse(json);
  return { ...data, rows: tableOf(data.rows), messages: tableOf(data.messages) };
}
/** @returns {Choices} */
const noChoices = () => ({ hours: 0, find: "", kind: "", call: "", origin: "", colours: "",
  until: Infinity });
/** @type {Page} */
export const page = { settings: settingsOf(), choices: noChoices(), shown: null, widgets: null,
  next: null, drawn: undefined, turn: null, roster: { list: [], faults: [] }, points: [],
  found: [],
  brought: [], playing: undefined, typing: undefined, alarm: new Alarm(), clockOf: null,
  own: new OwnLines(), looked: new Looked(), turned: false, follows: false, grows: false,
  picked: null, from: null, journal: null, marks: null };
/** What is drawn; it is a fault to ask for it before that. */
export function shownNow() {
  if (!page.shown) throw new Error("nothing is drawn yet");
  return page.shown;
}
/** What the page is drawn into; it is a fault to ask for it before the page has begun. */
export function widgets() {
  if (!page.widgets) throw new Error("the page hasn't begun");
  return page.widgets;
}

/**
 * The moment to which ages count: now where the page goes on, or else the last of the inputs.
 * @param {{ data: { live: number }, all: { end: number } | null } | null} of
 */
export const presentOf = of =>
  of?.data.live || page.follows ? Date.now() / 1000 : of?.all?.end ?? -Infinity;
/** What lists and the map have to know of the page. */
export const view = {
  get now() { return presentOf(page.shown); },
  get silent() { return shownNow().data.silent * 60; },
  get gap() { return shownNow().data.gap; },
  get picked() { return page.picked; },
  get rows() { return shownNow().all.rows; },
  get clockOf() { return page.clockOf; },
  get settings() { return page.settings; },
  isNewThing: (/** @type {Thing} */ it) => page.looked.isNewThing(it),
  isNewMessage: (/** @type {Message} */ it) => page.looked.isNewMessage(it),
  isLongAgo: (/** @type {number} */ last) => view.now - last > view.silent,
  /** Whether nobody waits for a station: somebody sees to it, or it isn't expected any more. */
  isExcused: (/** @type {{ name: string, heardAt: number }} */ it) =>
    [silenceOf(it), homeOf(it.name), otherCallOf(it.name)].some(view.markOf),
  isSilent: (/** @type {Omit<import("../net/net.js").Heard, "key">} */ it) =>
    it.kind === "station" && view.isLongAgo(it.heardAt) && !view.isExcused(it),
  get ownCall() { return page.choices.call; },
  keyOf: (/** @type {string} */ call) =>
    page.shown?.all.rows.things.includes(`station ${call}`) ? `station ${call}` : null,
  /** @returns {import("../lists/dealt-mark.js").Mark | null} */
  markOf(/** @type {string} */ alarm) {
    const mark = page.marks?.dealtWith(alarm)[0];
    return mark ? { desk: mark.desk, at: mark.at, note: String(mark.note) } : null;
  },
  onDeal: (/** @type {string} */ alarm, /** @type {string} */ note) =>
    void page.marks?.add("dealt", { alarm, note }),
  onUndo(/** @type {string} */ alarm) {
    for (const it of page.marks?.dealtWith(alarm) || []) page.marks?.remove(it.id);
  },
};
/**
 * Says what came of something that the reader did.
 * @param {string} text
 */
export function tell(text, isBad = false) {
  byId("told").textContent = text;
  byId("told").className = isBad ? "bad" : "";
}
