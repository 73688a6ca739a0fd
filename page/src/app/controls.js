// @ts-check
// The fields, buttons and keys of the page.

import { bringAll, takeAllAway } from "./add-layer.js";
import { drawPart } from "./header.js";
import { play, turnClock } from "./playback.js";
import { colour, drawMarks, refresh } from "./render.js";
import { reveal } from "./reveal.js";
import { sift } from "./search.js";
import { pick, takeOrigin, takeOtherCall } from "./selection.js";
import { listenToEdge } from "./splitter.js";
import { page, shownNow, widgets } from "./state.js";
import { nameIn } from "../net/rows.js";
import { byId, choose, keep } from "../util/dom.js";
import { runAllWaiting } from "../util/task-queue.js";

/** @param {string} id @param {string} kind @param {(event: Event) => unknown} run */
const on = (id, kind, run) => byId(id).addEventListener(kind, run);
/**
 * Has the page drawn anew when a field changes, and its value put where it is kept.
 * @param {"since" | "local" | "miles" | "place-form"} id
 * @param {() => void} put
 */
const redrawOn = (id, put) => on(id, "change", () => {
  put();
  refresh();
});

export function listenToControls() {
  listenToTools();
  listenToChoices();
  listenToHead();
  listenToLinks();
  listenToEscape();
  listenToPaper();
  widgets().form.listen();
}
/** The tools of the map. */
function listenToTools() {
  const { map, layers: { measure } } = widgets();
  on("in", "click", () => { map.zoom(1.5); map.turn(); });
  on("out", "click", () => { map.zoom(1 / 1.5); map.turn(); });
  on("fit", "click", () => { map.fit(map.fitted && !map.isAll && map.far > 0); map.turn(); });
  on("fill", "click", () => map.fill(!map.isFull));
  on("measure", "click", () => measure.turn(!measure.isOn));
  on("clock", "input", turnClock);
  on("play", "click", play);
  on("colours", "change", () => {
    const way = /** @type {import("../map/colours.js").Way | ""} */ (byId("colours").value);
    choose("colours", page.choices.colours = way);
    colour();
    map.paintSoon();
  });
  listenToEdge(byId("edge"), byId("map"));
}
/** What is shown, and in which words. */
function listenToChoices() {
  const { choices, settings } = page;
  on("find", "input", () => {
    choices.find = byId("find").value;
    sift();
  });
  on("kind", "change", () => {
    choices.kind = byId("kind").value;
    sift();
  });
  on("call", "change", () => {
    keep("call", choices.call = byId("call").value = byId("call").value.trim().toUpperCase());
    drawMarks();
  });
  on("origin", "change", () => takeOrigin(byId("origin").value));
  redrawOn("since", () => {
    choices.hours = Number(byId("since").value);
    choose("since", choices.hours ? String(choices.hours) : "");
    page.turned = true;
  });
  redrawOn("local", () => {
    settings.local = byId("local").checked;
    choose("time", settings.local ? "local" : "");
  });
  redrawOn("miles", () => {
    settings.miles = byId("miles").checked;
    keep("miles", settings.miles ? "on" : "");
    widgets().layers.measure.onChange();
  });
  redrawOn("place-form", () => {
    settings.form = /** @type {import("../geo/coordinate-formats.js").Form} */ (
      byId("place-form").value);
    keep("form", settings.form);
  });
}
/** News, sound, and what is brought. */
function listenToHead() {
  on("looked", "click", () => {
    page.looked.look(shownNow().net, Date.now() / 1000);
    byId("news").focus();
    refresh();
  });
  on("sound", "change", () => {
    page.alarm.turn(byId("sound").checked);
    choose("sound", page.alarm.isOn ? "on" : "");
  });
  for (const id of ["news", "urgent"])
    on(id, "click", ({ target }) => {
      const link = /** @type {HTMLElement} */ (target);
      if (!link.matches("a")) return;
      if (widgets().form.isOpen) widgets().form.open(false);
      reveal(link.dataset);
    });
  on("one-close", "click", closeOne);
  on("one-origin", "click", () => takeOrigin(nameIn(page.picked || "")));
  on("other-call-set", "click", takeOtherCall);
  on("lay", "click", () => widgets().sources.lay());
  on("bring", "change", () => {
    bringAll([...byId("bring").files || []]);
    byId("bring").value = ""; // so that the same file can be brought again
  });
  on("away", "click", takeAllAway);
}
/** Closes what is told of a thing; the keyboard goes to its row, where it has one, or the map. */
function closeOne() {
  const { picked } = page, { lists, map } = widgets();
  pick(picked);
  (picked !== null && lists.things.pickOf(picked) || map.node).focus({ preventScroll: true });
}
/**
 * Links within the page go to what they name, out of the map where that fills the window. The
 * address keeps what the reader chose.
 */
function listenToLinks() {
  addEventListener("click", event => {
    const link = /** @type {Element} */ (event.target).closest('a[href^="#"]');
    if (!link) return;
    const { map } = widgets();
    event.preventDefault();
    const to = byId((link.getAttribute("href") || "").slice(1));
    if (map.isFull && !to.contains(map.node)) map.fill(false);
    to.tabIndex = -1;
    to.focus({ preventScroll: true });
    to.scrollIntoView();
  });
}
const openMenus = () => [.../** @type {NodeListOf<HTMLDetailsElement>} */ (
  document.querySelectorAll("#controls details[open]"))];
/** Escape leaves what is open: a menu, the map that fills the window, or what is measured. */
function listenToEscape() {
  addEventListener("keydown", event => {
    if (event.key !== "Escape") return;
    const open = openMenus(), { map, layers: { measure, stations } } = widgets();
    for (const it of open) {
      it.open = false;
      if (it.contains(document.activeElement)) it.querySelector("summary")?.focus();
    }
    if (!open.length && measure.isOn) measure.turn(false);
    else if (!open.length && stations.fan.isOpen) stations.unfold(map);
    else if (!open.length && map.isFull) map.fill(false);
  });
  // a menu closes where one goes on beside it
  addEventListener("pointerdown", ({ target }) => {
    for (const it of openMenus()) if (!it.contains(/** @type {Node} */ (target))) it.open = false;
  });
}
/** On paper all stands that waits, in the colours of paper. */
function listenToPaper() {
  addEventListener("beforeprint", () => {
    runAllWaiting();
    drawPart();
    // the transmissions of one station aren't on paper
    const { lists } = widgets();
    for (const list of Object.values(lists)) if (list !== lists.frames) list.whole();
    dressFor(true);
  });
  addEventListener("afterprint", () => {
    dressFor(false);
    // in Firefox all is as wide as on paper until the next picture
    requestAnimationFrame(() => widgets().map.measure());
  });
}
/**
 * Puts on the colours of paper, or takes them off.
 * @param {boolean} paper
 */
function dressFor(paper) {
  document.documentElement.classList.toggle("printed", paper);
  const { map } = widgets();
  map.readColours();
  map.measure();
}
