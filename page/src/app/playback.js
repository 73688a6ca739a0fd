// @ts-check
// The time that the map shows.

import { page, shownNow, widgets } from "./state.js";
import { byId, choose, chosen, textOf } from "../util/dom.js";
import { timeText } from "../util/time.js";

/** So much of the time passes at each step, and a step takes so many milliseconds. */
const STEP = 0.004, PAUSE = 80;
/** The last place of the clock but one, as a share of the time: the last one shows all. */
const LAST = 0.999;

/**
 * Which share of the time has passed at a moment; 1 where all is shown.
 * @param {number} moment
 * @param {{ begin: number, end: number }} net
 */
export const shareOf = (moment, { begin, end }) =>
  Math.max(0, Math.min(1, (moment - begin) / Math.max(1, end - begin)));
/**
 * Has the map show the net as it was after a share of the time, and says so; all of it, of 1.
 * @param {number} share
 */
function showAt(share) {
  const { net } = shownNow(), { map, layers: { stations } } = widgets(), clock = byId("clock");
  const isAll = share >= 1, moment = net.begin + (net.end - net.begin) * Math.min(1, share);
  const text = net.rows.length ? timeText(moment, page.settings) : "";
  page.choices.until = stations.until = isAll ? Infinity : moment;
  clock.value = String(Math.round(Math.min(1, share) * +clock.max));
  byId("then").textContent = isAll || !text ? text : `until ${text}`;
  byId("then").className = isAll ? "" : "warn";
  clock.setAttribute("aria-valuetext", textOf("then"));
  map.paintSoon();
}
/** Has the address keep the moment that is shown; none, where that is all. */
function keepMoment() {
  const { until } = page.choices, some = shownNow().net.rows.length > 0;
  choose("clock", until === Infinity || !some ? "" : String(Math.round(until)));
}
/** Shows the net as it was at the clock's moment. */
export function turnClock() {
  const clock = byId("clock");
  showAt(+clock.value / +clock.max);
  keepMoment();
}
/** Shows all. */
export function showLatest() {
  showAt(1);
  keepMoment();
}
/** Leaves the map at its moment, also where the net goes on, or another part of it is shown. */
export function holdClock() {
  const { net } = shownNow(), { until } = page.choices;
  showAt(until >= net.begin && until < net.end ? Math.min(LAST, shareOf(until, net)) : 1);
}
function stop() {
  clearInterval(page.playing);
  page.playing = undefined;
  byId("play").textContent = "play";
  keepMoment();
}
/** Goes through the time from the clock's moment on, or stops. */
export function play() {
  if (page.playing) return stop();
  if (page.choices.until === Infinity) showAt(0);
  byId("play").textContent = "stop";
  page.playing = setInterval(() => {
    showAt(shareOf(page.choices.until, shownNow().net) + STEP);
    if (page.choices.until === Infinity) stop();
  }, PAUSE);
}
/** Puts the clock where it was left. */
export function beginClock() {
  const { net } = shownNow(), at = chosen.get("clock");
  if (at && net.rows.length) showAt(shareOf(Number(at), net));
}
