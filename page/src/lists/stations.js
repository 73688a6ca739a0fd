// @ts-check
// Stations, objects and items; receivers; who heard whom, and who repeated whom.

import { placeText } from "../geo/coordinate-formats.js";
import { dealtNodes, markWords } from "./dealt-mark.js";
import {
  ageCell, cell, heardCell, List, newMark, number, pickButton, rowHead, timeCell,
} from "./table-view.js";
import { markOf, symbolOf } from "../map/symbols.js";
import { homeOf, needOf, otherCallOf, silenceOf } from "../net/alarms.js";
import { clockWords } from "../net/clock-words.js";
import { OPEN, wordsOf } from "../net/details.js";
import { nameIn } from "../net/rows.js";
import { air, callIn, letters, make, makeButton } from "../util/dom.js";
import { printable, said } from "../util/text.js";

/** @typedef {import("../net/things.js").Thing} Thing */
/** @typedef {import("../net/receivers.js").Receiver} Receiver */
/** @typedef {import("../net/rows.js").Place} Place */
/** @typedef {import("../net/settings.js").Settings} Settings */
/** @typedef {import("./dealt-mark.js").Marking} Marking */
/**
 * Who is expected, when that was heard last, and its key.
 * @typedef {import("../net/roster.js").Expected & { heardAt: number, key: string }} Waited
 */
/**
 * How a receiver's clock is put right: by how much it was in what is drawn, whether it can be, and
 * what puts it forward by so much, or back, in place of that.
 * @typedef {{ shifted: (name: string) => number, can: (name: string) => boolean,
 *   put: (name: string, by: number) => void }} ClockOf
 */
/**
 * What lists have to know of the page: the moment to which ages count, after how many seconds a
 * station is silent, the gap, what is picked, new or silent, and what the reader chose.
 * @typedef {Marking & { now: number, silent: number, gap: number, picked: string | null,
 *   clockOf: ClockOf | null, isSilent: (it: Thing) => boolean,
 *   isExcused: (it: { name: string, heardAt: number }) => boolean,
 *   isLongAgo: (heardAt: number) => boolean,
 *   isNewThing: (it: Thing) => boolean, settings: Settings }} View
 */
/** What is said of a station that sends 0, 0. */
export const NO_FIX = "its place is 0, 0: no fix";

/** @param {Thing} it @param {View} view */
function marksOf(it, view) {
  const marks = [it.kind];
  if (it.killed) marks.push("killed");
  if (view.isSilent(it)) marks.push("silent");
  if (it.kind === "station" && view.isExcused(it)) marks.push("excused");
  if (it.urgent) marks.push(it.urgent);
  if (it.key === view.picked) marks.push("picked");
  if (view.isNewThing(it)) marks.push("new");
  return marks.join(" ");
}
/** What can be marked of a station: by whom somebody is awaited, or who sees to it. */
const marksFor = (/** @type {Thing} */ it) => [...it.urgent ? [needOf(it)] : [], silenceOf(it),
  homeOf(it.name), otherCallOf(it.name)];
/** @param {Thing} it @param {Place | null} now @param {View} view */
function aboutOf(it, now, view) {
  const { settings } = view;
  /** @type {(Node | string)[]} */
  const about = [];
  if (it.urgent) about.push(make("b", { className: "bad", textContent: it.urgent }), " ");
  if (now) {
    const words = wordsOf(now, settings).filter(one => one !== it.urgent).join(", ");
    if (words) about.push(make("span", { className: "words", textContent: words }), " ");
    about.push(air(now.comment), " ");
  } else if (it.unfixed) about.push(make("span", { className: "warn", textContent: NO_FIX }), " ");
  if (it.status) about.push(make("i", { title: "status" }, air(it.status)));
  for (const mark of it.kind === "station" ? marksFor(it).map(view.markOf) : [])
    if (mark) about.push(" ", make("small", { textContent: markWords(mark, settings) }));
  return about;
}
/** @param {Thing} it @param {View} view @param {(key: string) => void} onPick */
function thingRow(it, view, onPick) {
  const { now } = it, { settings } = view;
  const pick = pickButton(callIn(it.label), () => onPick(it.key), it.kind);
  /** @type {(Node | string)[]} */
  const kind = [it.kind + (it.killed ? " killed" : "")];
  if (it.kind !== "station" && now)
    kind.push(make("small", { textContent: ` of ${settings.names.shown(now.source)}` }));
  return make("tr", { className: marksOf(it, view) },
    rowHead(now ? markOf(it, now) : make("span", { className: "mark" }), pick,
      ...newMark(view.isNewThing(it))),
    cell("kind", ...kind), timeCell(it.last, settings),
    ageCell(it.heardAt, view), heardCell(it.by), cell("num sent", sentText(it)),
    cell("where", ...whereOf(now, settings)), cell("about", ...aboutOf(it, now, view)));
}
/** How much a station sent of its own, and of others as a gate. */
export const sentText = (/** @type {Thing} */ { sent, passed }) => passed
  ? `${sent.toLocaleString("en")}, ${passed.toLocaleString("en")} of others`
  : sent.toLocaleString("en");
/** @param {Place | null} place @param {Settings} settings */
export function whereOf(place, settings) {
  if (!place) return [];
  const text = placeText(place.north, place.east, settings);
  return [make("a", { href: `geo:${place.north.toFixed(6)},${place.east.toFixed(6)}`, tabIndex: -1,
    textContent: text }), OPEN[place.ambiguity] ? " (about)" : ""];
}
/** @param {HTMLElement} box @param {View} view @param {(key: string) => void} onPick */
export function thingList(box, view, onPick) {
  const row = (/** @type {Thing} */ it) => thingRow(it, view, onPick);
  return new List(box, { id: "things", caption: "stations, objects and items", row,
    keyOf: it => it.key, columns: [
      { title: "name", value: it => it.label }, { title: "kind", value: it => it.kind },
      { title: "last heard", number: true, value: it => it.last },
      { title: "age", number: true, value: it => -it.heardAt },
      { title: "by", value: it => it.by.join() },
      { title: "sent", number: true, value: it => it.sent + it.passed },
      { title: "place", value: it => it.now ? it.now.north : -Infinity },
      { title: "comment, status", value: it => (it.now?.comment || "") + it.status },
    ] });
}
/**
 * What `find` looks in.
 * @param {Thing} it
 * @param {Settings} settings
 */
export function haystack(it, settings) {
  const words = [it.label, it.kind, it.by.join(" "), said(it.status)], { now } = it;
  if (now)
    words.push(said(now.comment), symbolOf(now).word, wordsOf(now, settings).join(" "),
      settings.names.shown(now.source));
  return words.join("\n").toLowerCase();
}

/**
 * A table of stations by receivers or digipeaters; `tell` says what a pair stands for.
 * @param {HTMLElement} box
 * @param {{ id: string, caption: string, pairs: import("../net/hearings.js").Pairs,
 *   sent: Map<string, number>,
 *   tell: (source: string, name: string, n: number, of: number) => string }} of
 */
export function pairList(box, { id, caption, pairs, sent, tell }) {
  const columns = [...pairs.columns].sort();
  const sentBy = (/** @type {string} */ source) => sent.get(source) || 0;
  const row = (/** @type {string} */ source) => {
    const of = sentBy(source), cells = columns.map(name => {
      // a digipeater is repeated too, more than it sent of its own
      const n = pairs.get(source, name), share = n / Math.max(n, of, 1);
      return make("td", { className: `num h${Math.ceil(share * 5)}`,
        textContent: n ? String(n) : "", title: tell(source, name, n, of) });
    });
    return make("tr", { className: source === "all" ? "all" : "" },
      rowHead(source), ...cells, cell("num", String(of)));
  };
  const list = new List(box, { id, caption, row, columns: [
    { title: "station", value: it => it },
    ...columns.map(name => ({ title: name, number: true,
      value: (/** @type {string} */ it) => pairs.get(it, name) })),
    { title: "sent", number: true, value: sentBy }] });
  const sources = [...pairs.counts.keys()].filter(it => it !== "all").sort();
  list.show(sources.length ? ["all", ...sources] : []);
  return list;
}
/** @param {number} n @param {number} of */
export const shareText = (n, of) => `${n} of ${of} (${Math.round(n / of * 100)} %)`;

/** By so many others a clock may be put right, where none is known to be. */
const OTHERS = 3;
/**
 * What can be done with a receiver's clock, where the page has its log, and by how much it is put
 * forward then. Where no two receivers agree, the reader says which of them is right.
 * @param {Pick<Receiver, "name" | "clock">} it @param {boolean} isWrong @param {ClockOf} clockOf
 */
export function waysFor({ name, clock }, isWrong, clockOf) {
  const was = clockOf.shifted(name), ways = [];
  if (isWrong && clock && clockOf.can(name)) {
    if (!Number.isNaN(clock.by)) ways.push({ words: "put right", by: was - Math.round(clock.by) });
    else for (const { b, by } of clock.from.slice(0, OTHERS))
      ways.push({ words: `put right by ${b}`, by: was - Math.round(by) });
  }
  if (was) ways.push({ words: "leave as it was", by: 0 });
  return ways;
}
/** @param {Receiver} it @param {boolean} isWrong @param {View} view */
const clockButtons = (it, isWrong, { clockOf }) => clockOf
  ? waysFor(it, isWrong, clockOf).map(({ words, by }) =>
    makeButton(words, () => clockOf.put(it.name, by), `${words} the clock of ${it.name}`,
      { className: "clock" })) : [];
/** @param {HTMLElement} box @param {View} view */
export function receiverList(box, view) {
  const row = (/** @type {Receiver} */ it) => {
    const clock = clockWords(it, view.gap);
    return make("tr", { className: view.now - it.last > view.silent ? "silent" : "" },
      rowHead(it.name), timeCell(it.last, view.settings),
      ageCell(it.last, view), number(it.heard), number(it.alone),
      make("td", { className: clock.wrong ? "num wrong" : "num", title: clock.title }, clock.text,
        ...clockButtons(it, clock.wrong, view)));
  };
  const keyOf = (/** @type {Receiver} */ it) => it.name;
  return new List(box, { id: "receivers", caption: "receivers", row, keyOf, columns: [
    { title: "receiver", value: it => it.name },
    { title: "last heard", number: true, value: it => it.last },
    { title: "age", number: true, value: it => -it.last },
    { title: "heard", number: true, value: it => it.heard },
    { title: "alone", number: true, value: it => it.alone },
    { title: "clock", number: true, value: it => it.clock?.by || 0 },
  ] });
}
/** What is noted of one for whom nobody waits any more: who was heard, and who wasn't. */
export const GONE = "went home", ABSENT = "isn\u2019t coming";
/**
 * Whether nobody waits any more for one that is expected, by its call or that which was heard.
 * @param {Waited} it @param {Pick<View, "isExcused">} view
 */
export const isExcusedOf = ({ call, key, heardAt }, { isExcused }) =>
  [call, ...key ? [nameIn(key)] : []].some(name => isExcused({ name, heardAt }));
/**
 * Whom one waits for.
 * @param {HTMLElement} box @param {View} view @param {(key: string) => void} onPick
 */
export function rosterList(box, view, onPick) {
  const row = (/** @type {Waited} */ it) => {
    const { heardAt } = it, heard = heardAt > -Infinity, isExcused = isExcusedOf(it, view);
    const call = heard ? pickButton(it.call, () => onPick(it.key)) : it.call;
    const marks = [...isExcused ? ["excused"] : view.isLongAgo(heardAt) ? ["silent"] : []];
    return make("tr", { className: marks.join(" ") },
      rowHead(call), cell("text", letters(printable(it.name))),
      cell("group", letters(printable([it.group, it.bib].filter(Boolean).join(" ")))),
      heard ? timeCell(heardAt, view.settings) : cell("num time", "not heard",
        ...dealtNodes(homeOf(it.call), view.settings.names.shown(it.call), view, [ABSENT])),
      heard ? ageCell(heardAt, view) : cell("num age"));
  };
  const keyOf = (/** @type {Waited} */ it) => it.call;
  return new List(box, { id: "expected", caption: "expected stations", row, keyOf, columns: [
    { title: "call", value: it => it.call }, { title: "who", value: it => it.name },
    { title: "group, no.", value: it => it.group + it.bib },
    { title: "last heard", number: true, value: it => it.heardAt },
    { title: "age", number: true, value: it => -it.heardAt }] });
}
