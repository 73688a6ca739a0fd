// @ts-check
// What stands above all else: when and by whom the net was heard, what is new, what wants doing.

import { needsOf, newsOf } from "./alerts.js";
import { callsBefore } from "./dealt.js";
import { page, shownNow, view } from "./state.js";
import { isExcusedOf } from "../lists/stations.js";
import { expectedOf, faultWords } from "../net/roster.js";
import { byId, make, makeButton, replaceIn, write } from "../util/dom.js";
import { count, firstOf, namesText } from "../util/text.js";
import { dateText, secondText, timeText, zonesText } from "../util/time.js";

/** So many who are in need are named above any view. */
const URGENT = 6;
/** Says when, of how many and by whom the net was heard. */
export function drawAbout() {
  const { net, all, data } = shownNow(), { settings } = page;
  const stations = net.things.filter(it => it.kind === "station").length;
  const zone = net.rows.length ? zonesText(net.begin, net.end, settings) : "UTC";
  byId("zone").textContent = `All times are ${zone}.`;
  if (!net.rows.length)
    byId("about").textContent = all.rows.length ? "Nothing was heard in this time." :
      data.waits ? "" : "Nothing was heard yet.";
  else {
    const by = namesText(net.receivers.map(it => it.name));
    const day = (/** @type {number} */ at) => `${dateText(at, settings)} `;
    const to = (settings.dated ? day(net.end) : "") + secondText(net.end, settings);
    byId("about").textContent = `${day(net.begin)}${secondText(net.begin, settings)} to ${to} ` +
      `${zone} \u00b7 ${count(net.rows.length, "transmission")} of ` +
      `${count(stations, "station")} \u00b7 heard by ${by}`;
  }
}
/**
 * What is said on paper of a part, since what the reader chose can't be seen there: the hours that
 * are shown or 0, the moment of the map, and how many things of all are found.
 * @param {{ hours: number, until: number, found: number, all: number,
 *   clock: import("../util/time.js").Clock }} of
 */
export function partText({ hours, until, found, all, clock }) {
  const words = [];
  if (hours) words.push(`the last ${hours} h alone`);
  if (until !== Infinity) words.push(`the map as it was at ${timeText(until, clock)}`);
  if (found < all) words.push(`${found} of ${all} stations, objects and items`);
  return words.length ? `This is a part: ${words.join("; ")}.` : "";
}
/** Says on paper that something is left out. */
export function drawPart() {
  const { net } = shownNow(), { found, choices: { hours, until }, settings } = page;
  write("part", partText({ hours, until, found: found.length, all: net.things.length,
    clock: settings }));
}
/** From now on what is new is marked, as in a page that goes on. */
export function goOnFromHere() {
  page.grows = true;
  if (page.shown && !page.looked.seen) page.looked.look(page.shown.net, Date.now() / 1000);
}
/** Says what is new since the reader looked, where the page goes on. */
export function drawLooked() {
  const { net, data } = shownNow(), { looked } = page;
  const goesOn = Boolean(data.live || page.follows || page.grows);
  if (!goesOn) looked.forget();
  else if (!looked.seen && net.rows.length) looked.look(net, Date.now() / 1000);
  if (page.turned) looked.reveal(net);
  page.turned = false;
  const fresh = looked.count(net), button = byId("looked");
  button.hidden = !fresh;
  button.textContent = `${fresh} new since ${timeText(looked.at, page.settings)}: mark as seen`;
  document.title = fresh ? `(${fresh}) ${data.title}` : data.title;
}
/** @param {import("./alerts.js").Word} word */
const linkOf = ({ href, grade, text, pick: key, isEarlier, kind }) => make("a", { href,
  className: grade, textContent: text,
  data: { ...key && { key }, ...isEarlier && { earlier: "yes" }, ...kind && { kind } } });
/**
 * The words of the news, and notes and faults of the roster.
 * @returns {HTMLElement[]}
 */
function newsNodes() {
  const { net, data, all } = shownNow(), now = view.now;
  const expected = expectedOf(page.roster.list, net.whole.stations, callsBefore());
  const missing = expected.filter(it => view.isLongAgo(it.heardAt) && !isExcusedOf(it, view))
    .map(it => it.call);
  const news = all.rows.length ? newsOf(net, { gap: data.gap, silent: data.silent,
    isLongAgo: view.isLongAgo, isSilent: view.isSilent, ownCall: view.ownCall,
    markOf: view.markOf, settings: page.settings, missing, expected: expected.length, end: now,
    // a page that goes on says itself what it misses, and by the server's clock
    now: data.live || page.follows ? undefined : Date.now() / 1000 }) : [];
  const faults = faultWords(page.roster.faults).map(it => `roster, ${it}`);
  return [...news.map(linkOf),
  ...[...firstOf(data.notes), ...faults].map(textContent =>
    make("span", { className: "bad", textContent }))];
}
/** What a word of the news is about, in whatever words. */
const aboutOf = (/** @type {HTMLElement} */ it) =>
  [Reflect.get(it, "href"), it.dataset.key, it.dataset.alarm].join(" ");
/** What wants doing, as links; what says the same stays. */
export function drawNews() {
  const nodes = newsNodes();
  const words = (/** @type {Element[]} */ list) =>
    list.map(it => it.className + it.textContent).join("\n");
  if (words(nodes) !== words([...byId("news").children]))
    replaceIn(byId("news"), nodes.flatMap(it => [it, " "]), aboutOf);
  const needs = needsOf(shownNow().net.whole.needy, view)
    .filter(it => it.grade === "alarm" || it.grade === "bad");
  drawUrgent(needs);
  const fresh = page.alarm.hear(needs).map(it => it.text);
  if (fresh.length) byId("needs").textContent = firstOf(fresh).join("; ");
}
/**
 * Says above any view who is in need, and with whom nobody deals yet.
 * @param {import("./alerts.js").Need[]} needs
 */
function drawUrgent(needs) {
  const some = needs.slice(0, URGENT), more = needs.length - some.length;
  const words = [...some.map(it => it.text), ...more ? [`and ${more} more`] : []];
  const urgent = byId("urgent");
  if ([...urgent.querySelectorAll("a, span")].map(it => it.textContent).join("\n") ===
    words.join("\n")) return;
  urgent.hidden = !some.length;
  const button = (/** @type {import("./alerts.js").Need} */ it) => makeButton("dealt with",
    () => view.onDeal(it.alarm, ""), `dealt with: ${it.text}`,
    { className: "deal", data: { alarm: it.alarm } });
  replaceIn(urgent, [...some.flatMap(it => [linkOf(it), button(it), " "]),
    ...words.slice(some.length).map(textContent => make("span", { textContent }))],
  aboutOf, byId("ics-close"));
}
