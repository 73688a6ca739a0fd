// @ts-check
// A page that goes on: it asks for itself again, ages count to now, and it says what it misses.

import { drawNews } from "./header.js";
import { show } from "./render.js";
import { aheadOf, staleWords } from "./staleness.js";
import { dataIn, page, shownNow, view, widgets } from "./state.js";
import { byId, choose, chosen, textOf, write } from "../util/dom.js";
import { accepted, Refused } from "../util/refused.js";
import { age } from "../util/time.js";

/**
 * When the page was asked for, answered and touched last, and since when its server is away, in
 * milliseconds; by how many seconds this computer's clock is ahead of the server's; what is
 * refused; and whether it is asked for at all.
 */
export const alive = { isOn: false, asked: Date.now(), asks: false, touched: 0, answered: 0,
  away: 0, ahead: 0, refused: "" };
/** After how many milliseconds a server that doesn't answer is away, and is asked anew. */
export const patience = { late: 10000, most: 120000 };

/** Whether a server gives the page, and no disk. */
export const isServed = () => location.protocol.startsWith("http");
/** Whether somebody is at work in the page, or would lose something where it is loaded again. */
export const isBusy = () => Date.now() - alive.touched < 10000 || page.playing !== undefined ||
  !isServed() && (Boolean(page.widgets?.form.isWritten) || page.own.isAtRisk ||
    Boolean(page.marks?.isAtRisk));
/** Has the page of an event ask for itself again, unless somebody is at work in it. */
export function beginAlive() {
  const { live } = shownNow().data, box = byId("live");
  alive.answered = Date.now();
  byId("live-label").hidden = false;
  byId("live-label").lastElementChild?.replaceChildren(`load again each ${live} s`);
  for (const kind of ["keydown", "pointerdown", "wheel", "input"])
    addEventListener(kind, () => { alive.touched = Date.now(); }, { passive: true });
  alive.isOn = box.checked = chosen.get("live") !== "off";
  box.addEventListener("change", () => {
    alive.isOn = box.checked;
    choose("live", alive.isOn ? "" : "off");
  });
  setInterval(() => {
    tick();
    if (!alive.isOn || isBusy() || alive.asks || Date.now() - alive.asked < live * 1000) return;
    alive.asked = Date.now();
    again();
  }, 1000);
}
/**
 * A server has answered what it was asked at a moment.
 * @param {Response} answer
 * @param {number} asked
 */
export function heard(answer, asked) {
  alive.answered = Date.now();
  alive.ahead = aheadOf(answer.headers.get("date"), asked, alive.answered);
}
/** Loads the page again: its data alone where a server has it, and all of it from a disk. */
export async function again() {
  if (!isServed()) return location.reload();
  alive.asks = true;
  const late = setTimeout(() => { alive.away ||= alive.asked; tick(); }, patience.late);
  try {
    const signal = /** @type {any} */ (AbortSignal).timeout(patience.most);
    const answer = accepted(
      await fetch(location.pathname + location.search, { cache: "no-store", signal }));
    const tree = new DOMParser().parseFromString(await answer.text(), "text/html");
    // such as a page that asks for a password
    if (!tree.getElementById("data")) throw new Refused("the server answers with another page");
    heard(answer, alive.asked);
    Object.assign(alive, { away: 0, refused: "" });
    const policy = (/** @type {Document} */ it) =>
      it.querySelector("meta[http-equiv]")?.getAttribute("content");
    if (policy(tree) !== policy(document)) return location.reload();
    const text = tree.getElementById("data")?.textContent || "";
    if (text !== textOf("data")) {
      byId("data").textContent = text;
      await show(dataIn(text));
    }
  } catch (fault) {
    if (fault instanceof Refused) Object.assign(alive, { away: 0, refused: fault.message });
    else Object.assign(alive, { away: alive.away || Date.now(), refused: "" });
  }
  clearTimeout(late);
  alive.asks = false;
  tick();
}
/** The lists whose rows are silent or not as time goes on. */
const LISTS = { "things-box": "tr.station", "receivers-box": "tbody tr", "roster-box": "tbody tr" };
/**
 * Counts ages on.
 * @param {number} now in seconds
 */
function countAges(now) {
  const heardAt = (/** @type {Element | null} */ it) => Number(it?.getAttribute("data-v"));
  for (const it of document.querySelectorAll(".age[data-v]"))
    it.textContent = age(now - heardAt(it));
  for (const [box, rows] of Object.entries(LISTS))
    for (const row of byId(box).querySelectorAll(rows))
      row.classList.toggle("silent", !row.classList.contains("excused") &&
        now - heardAt(row.querySelector(".age")) > view.silent);
}
/** Counts ages on, and says what this page misses. */
export function tick() {
  if (!page.shown) return;
  const now = Date.now() / 1000, { all, data } = page.shown, { map, layers } = widgets();
  countAges(now);
  drawNews();
  // colours of ages go on too
  if (Math.floor(now) % 10 === 0 && layers.stations.colouring.way === "age") map.paintSoon();
  write("stale", staleWords({ now, end: all.rows.length ? all.end : NaN,
    answered: alive.answered / 1000, away: alive.away / 1000, ahead: alive.ahead,
    each: page.follows ? 0 : data.live, refused: alive.refused, clock: page.settings }).join("; "));
}
