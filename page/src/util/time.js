// @ts-check
// Moments and ages in words.

/** @typedef {"" | "day" | "year"} Dated whether moments are written with a day, and its year */
/**
 * How moments are written: in local time or UTC, and with the date where that matters.
 * @typedef {{ local: boolean, dated: Dated }} Clock
 */
const MONTHS =
  ["Jan", "Feb", "Mar", "Apr", "May", "Jun", "Jul", "Aug", "Sep", "Oct", "Nov", "Dec"];
const two = (/** @type {number} */ n) => String(n).padStart(2, "0");

/**
 * The date and the time of a moment, as the reader wants them: year, month from 0, day, ..
 * @param {number} seconds @param {Pick<Clock, "local">} clock
 */
function civil(seconds, { local }) {
  const it = new Date(seconds * 1000);
  return local
    ? [it.getFullYear(), it.getMonth(), it.getDate(), it.getHours(), it.getMinutes(),
      it.getSeconds()]
    : [it.getUTCFullYear(), it.getUTCMonth(), it.getUTCDate(), it.getUTCHours(),
      it.getUTCMinutes(), it.getUTCSeconds()];
}
/** @param {number} seconds @param {Pick<Clock, "local">} clock */
export function dateText(seconds, clock) {
  const [year, month, day] = civil(seconds, clock);
  return `${year}-${two(month + 1)}-${two(day)}`;
}
/** @param {number} seconds @param {Pick<Clock, "local">} clock */
export function hourText(seconds, clock) {
  return secondText(seconds, clock).slice(0, 5);
}
/** @param {number} seconds @param {Pick<Clock, "local">} clock */
export function secondText(seconds, clock) {
  const [, , , hour, minute, second] = civil(seconds, clock);
  return `${two(hour)}:${two(minute)}:${two(second)}`;
}
/**
 * Whether moments are of several days, or years.
 * @param {number[]} moments
 * @param {Pick<Clock, "local">} clock
 * @returns {Dated}
 */
export function datedBy(moments, clock) {
  let least = Infinity, most = -Infinity;
  for (const it of moments)
    if (Number.isFinite(it)) [least, most] = [Math.min(least, it), Math.max(most, it)];
  if (!(least < most) || dateText(least, clock) === dateText(most, clock)) return "";
  return civil(least, clock)[0] === civil(most, clock)[0] ? "day" : "year";
}
/**
 * A moment, with the date where more than one day is shown, and the year where more than one is.
 * @param {number} seconds @param {Clock} clock
 */
export function timeText(seconds, clock) {
  const [, month, day] = civil(seconds, clock), text = secondText(seconds, clock);
  const { dated } = clock;
  if (dated === "year") return `${dateText(seconds, clock)} ${text}`;
  return dated ? `${day} ${MONTHS[month]} ${text}` : text;
}
/** @param {number} seconds @param {Pick<Clock, "local">} clock */
export function zoneText(seconds, clock) {
  if (!clock.local) return "UTC";
  const ahead = -new Date(seconds * 1000).getTimezoneOffset(), far = Math.abs(ahead);
  return `UTC${ahead < 0 ? "\u2212" : "+"}${two(Math.floor(far / 60))}:${two(far % 60)}`;
}
/** In so many parts of a time it is asked which zone there is. */
const ZONES = 400;
/**
 * The zones of a time, one after the other, such as those before and after a clock change.
 * @param {number} begin
 * @param {number} end
 * @param {Pick<Clock, "local">} clock
 */
export function zonesText(begin, end, clock) {
  const step = Math.max(900, (end - begin) / ZONES), zones = new Set();
  if (clock.local) for (let at = begin; at < end; at += step) zones.add(zoneText(at, clock));
  return [...zones.add(zoneText(end, clock))].join(" and ");
}
/** @param {number} seconds @param {Pick<Clock, "local">} clock */
export const fullText = (seconds, clock) =>
  `${dateText(seconds, clock)} ${secondText(seconds, clock)} ${zoneText(seconds, clock)}`;
/** @param {number} seconds */
export const isoText = seconds => new Date(seconds * 1000).toISOString();

/**
 * A time in whole units of some seconds.
 * @param {number} far in seconds, not below 0
 * @returns {{ n: number, size: number, unit: string }}
 */
export function unitsOf(far) {
  /** @type {[number, number, string][]} */
  const units = [[60, 1, "s"], [5400, 60, "min"], [172800, 3600, "h"]];
  const [, size, unit] = units.find(([below]) => far < below) || [0, 86400, "d"];
  return { n: Math.floor(far / size), size, unit };
}
/**
 * How long ago something was; less than nothing, of what is still to come.
 * @param {number} passed in seconds
 */
export function age(passed) {
  const { n, unit } = unitsOf(Math.abs(passed));
  return `${passed < 0 && n ? "\u2212" : ""}${n} ${unit}`;
}
