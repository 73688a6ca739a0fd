// @ts-check
// How places are written: in degrees, in minutes, in metres or as a locator.

import { degreesOf } from "./sphere.js";
import { mgrsText, utmText } from "./utm.js";

/**
 * The Maidenhead locator of a place, with six letters.
 * @param {number} north
 * @param {number} east
 */
export function locatorOf(north, east) {
  const a = Math.min(359.9999, Math.max(0, east + 180)), b = Math.min(179.9999, north + 90);
  const letter = (/** @type {number} */ n, /** @type {string} */ first) =>
    String.fromCharCode(first.charCodeAt(0) + n);
  return letter(Math.floor(a / 20), "A") + letter(Math.floor(b / 10), "A") +
    Math.floor(a % 20 / 2) + Math.floor(b % 10) +
    letter(Math.floor(a % 2 * 12), "a") + letter(Math.floor(b % 1 * 24), "a");
}
/**
 * A place in degrees and minutes, as radio amateurs say it.
 * @param {number} north
 * @param {number} east
 */
export function minutesText(north, east) {
  const one = (/** @type {number} */ value, /** @type {number} */ digits,
    /** @type {string} */ marks) => {
    const all = Math.round(Math.abs(value) * 6000);
    return `${String(Math.floor(all / 6000)).padStart(digits, "0")}\u00b0` +
      `${(all % 6000 / 100).toFixed(2).padStart(5, "0")}\u2032${marks[value < 0 ? 1 : 0]}`;
  };
  return `${one(north, 2, "NS")} ${one(east, 3, "EW")}`;
}

/** @typedef {"" | "minutes" | "utm" | "mgrs" | "locator"} Form degrees are empty */
/**
 * @param {number} north
 * @param {number} east
 * @param {number} digits
 */
export const degreesText = (north, east, digits) =>
  `${north.toFixed(digits)}, ${east.toFixed(digits)}`;
/** @type {Record<Form, (north: number, east: number) => string>} */
const TEXTS = {
  "": (north, east) => degreesText(north, east, 4), minutes: minutesText, utm: utmText,
  mgrs: mgrsText, locator: locatorOf,
};
/**
 * A place as the reader wants it; in degrees where it is too near to a pole for that.
 * @param {number} north
 * @param {number} east
 * @param {{ form: Form }} settings
 */
export const placeText = (north, east, { form }) =>
  TEXTS[form](north, east) || degreesText(north, east, 4);
/**
 * A place in each form, for the place of the pointer.
 * @param {ArrayLike<number>} vector
 */
export function spotText(vector) {
  const [north, east] = degreesOf(vector);
  return [degreesText(north, east, 5), minutesText(north, east), mgrsText(north, east),
    locatorOf(north, east)].filter(Boolean).join(" \u00b7 ");
}
/**
 * What is known of where a thing is, each with its name.
 * @param {number} north
 * @param {number} east
 * @returns {[string, string][]}
 */
export function placeFacts(north, east) {
  /** @type {[string, string][]} */
  const facts = [["place", degreesText(north, east, 5)], ["", minutesText(north, east)],
    ["UTM", utmText(north, east)], ["MGRS", mgrsText(north, east)],
    ["locator", locatorOf(north, east)]];
  return facts.filter(it => it[1]);
}
