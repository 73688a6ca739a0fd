// @ts-check
// What a station's telemetry means: the names, units and equations of its channels. Messages to
// that station say them (APRS Protocol Reference 1.0.1, chapter 13).

import { said } from "../util/text.js";

/** @typedef {{ addressee: string, text: string, last: number }} Message */
/**
 * A channel of telemetry: its name, its unit, and how its numbers become those of the unit.
 * @typedef {{ name: string, unit: string, of: (n: number) => number }} Channel
 */
/** How many channels have numbers; the others are bits. */
const CHANNELS = [0, 1, 2, 3, 4];
const same = (/** @type {number} */ n) => n;
/** A coefficient beyond this means nothing, and numbers that come of it fill a line with digits. */
const MOST = 1e9;

/**
 * The fields of the last message to a station that begins so.
 * @param {Message[]} messages
 * @param {string} call
 * @param {"PARM." | "UNIT." | "EQNS."} begin
 */
function fieldsOf(messages, call, begin) {
  /** @type {Message | null} */
  let last = null;
  for (const it of messages)
    if (it.addressee === call && it.text.startsWith(begin) && !(last && last.last > it.last))
      last = it;
  return last ? said(last.text.slice(begin.length)).split(",").map(it => it.trim()) : [];
}
/**
 * An equation of three coefficients, for the square, the number itself and the rest; null where
 * they are none.
 * @param {string[]} texts
 */
function equationOf(texts) {
  const [a, b, c] = texts.map(it => it === "" ? NaN : Number(it));
  if (![a, b, c].every(it => Math.abs(it) <= MOST)) return null;
  return (/** @type {number} */ n) => a * n * n + b * n + c;
}
/**
 * The channels of a station, as messages name them.
 * @param {Message[]} messages
 * @param {string} call
 * @returns {Channel[]}
 */
export function channelsOf(messages, call) {
  const names = fieldsOf(messages, call, "PARM."), units = fieldsOf(messages, call, "UNIT.");
  const numbers = fieldsOf(messages, call, "EQNS.");
  return CHANNELS.map(n => {
    const of = equationOf(numbers.slice(3 * n, 3 * n + 3));
    return { name: names[n] || `telemetry ${n + 1}`, of: of || same,
      unit: units[n] || (of ? "no unit said" : "as sent") };
  });
}
/**
 * Whether a channel tells of a battery, by its name or by its unit, which is volts.
 * @param {Channel} channel
 */
export const isBattery = ({ name, unit }) =>
  /(?:^|[^a-z])[uv]?bat(?:t(?:ery)?)?(?![a-z])/i.test(name) || /^m?v(?:olts?)?$/i.test(unit);
