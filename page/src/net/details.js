// @ts-check
// What a place says of course, height, weather and need, in words. The comment itself is shown too,
// as it came.

import { far, inWords } from "../geo/units.js";

/** @typedef {import("./rows.js").Details} Details */
/** @typedef {import("../geo/units.js").Units} Units */
/**
 * Digits of the minutes that were left out leave so many metres open to each side.
 * @type {Record<number, number>}
 */
export const OPEN = { 1: 93, 2: 926, 3: 9260, 4: 55560 };

/**
 * Each value of the weather but the wind, in words.
 * @type {[keyof Details, (n: number, units: Units) => string][]}
 */
const WEATHER = [
  ["gust", (n, units) => `gusts of ${inWords("mph", n, units)}`],
  ["fahrenheit", (n, units) => inWords("fahrenheit", n, units)],
  ["rainHour", (n, units) => `${inWords("rain", n, units)} of rain in an hour`],
  ["rainDay", (n, units) => `${inWords("rain", n, units)} of rain in 24 hours`],
  ["rainMidnight", (n, units) => `${inWords("rain", n, units)} of rain since midnight`],
  ["humidity", n => `humidity ${n} %`], ["pressure", n => `${(n / 10).toFixed(1)} hPa`],
  ["luminosity", n => `${n} W/m\u00b2`],
];

/** @param {Details} of @param {Units} units */
export function weatherWords(of, units) {
  const words = [];
  if (of.wind === 0) words.push("calm");
  else if (of.wind !== undefined) {
    const from = of.windFrom === undefined ? "" : `from ${of.windFrom}\u00b0, `;
    words.push(`wind ${from}${inWords("mph", of.wind, units)}`);
  }
  for (const [name, say] of WEATHER) {
    const value = of[name];
    if (typeof value === "number") words.push(say(value, units));
  }
  return words;
}
/**
 * Course and knots of a place, where it moves.
 * @param {Details} of
 */
export function motionOf(of) {
  return of.knots ? { course: of.course, knots: of.knots } : null;
}
/**
 * A place's motion, height, weather and Mic-E message, in words.
 * @param {Details} of
 * @param {Units} units
 */
export function wordsOf(of, units) {
  const words = [], motion = motionOf(of);
  if (motion) {
    const course = motion.course === undefined ? "" : `${motion.course % 360}\u00b0, `;
    words.push(course + inWords("knots", motion.knots, units));
  }
  words.push(...weatherWords(of, units));
  if (of.metres !== undefined) words.push(`${inWords("metres", of.metres, units)} high`);
  if (of.range !== undefined) words.push(`range ${far(of.range * 1609.344, units)}`);
  if (of.says && of.says !== "unknown") words.push(of.says.replaceAll("-", " "));
  return words;
}
