// @ts-check
// What a reader chose of how all is written, and who is known. It is handed to whatever writes.

import { Names } from "./roster.js";

/**
 * In local time or UTC, and with the date where that matters; in miles, feet and degrees of
 * Fahrenheit or not; how places are written; and the names of stations.
 * @typedef {import("../util/time.js").Clock & import("../geo/units.js").Units &
 *   { form: import("../geo/coordinate-formats.js").Form, names: Names }} Settings
 */

/**
 * Settings, as a page has them that nobody changed, but for these.
 * @param {Partial<Settings>} of
 * @returns {Settings}
 */
export const settingsOf = (of = {}) =>
  ({ local: false, dated: "", miles: false, form: "", names: new Names([]), ...of });
