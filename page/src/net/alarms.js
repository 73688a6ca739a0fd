// @ts-check
// What an alarm is known by at all desks. A mark that it is dealt with holds for it alone: the next
// alarm of the same station is known by another moment.

import { isoText } from "../util/time.js";

/** @typedef {import("./message-table.js").Message} Message */

/** A station is in need, without a break since a moment. */
export const needOf = (/** @type {{ name: string, needSince: number }} */ { name, needSince }) =>
  `need ${name} ${momentText(needSince)}`;
/**
 * A station is silent that was last heard at a moment.
 * @param {{ name: string, heardAt: number }} it
 */
export const silenceOf = ({ name, heardAt }) => `silent ${name} ${momentText(heardAt)}`;
/** A message that isn't answered, or is rejected: this time that it was sent. */
export const unansweredOf = (/** @type {Message} */ { source, addressee, id, first }) =>
  `message ${source} ${addressee} ${id} ${momentText(first)}`;
/** A station went home, and nobody waits for it any more. */
export const homeOf = (/** @type {string} */ call) => `home ${call}`;
/** A station goes on under another call, which is noted with the mark. */
export const otherCallOf = (/** @type {string} */ call) => `call ${call}`;
const momentText = (/** @type {number} */ at) => Number.isFinite(at) ? isoText(at) : "";
