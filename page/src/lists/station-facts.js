// @ts-check
// What else is known of a station: its kinds of transmissions, weather without a place, telemetry.

import { weatherWords } from "../net/details.js";
import { detailsOf } from "../net/rows.js";
import { momentOf } from "../util/dom.js";

/** @typedef {import("../net/things.js").Thing} Thing */
/** @typedef {import("../net/telemetry.js").Channel} Channel */
/** @typedef {[string, ...(string | Node)[]]} Fact a name and its value */

/**
 * How many transmissions of each kind a station sent.
 * @param {Thing} thing
 * @param {ArrayLike<number>} picks
 */
export function kindsOf(thing, picks) {
  const { rows, key } = thing, counts = new Map();
  for (let n = 0; n < picks.length; n++) {
    const k = picks[n];
    if (rows.things[rows.station[k]] !== key) continue;
    const kind = rows.is(k, "other") ? `other (${rows.kindOf(k)})` : rows.kindOf(k);
    counts.set(kind, (counts.get(kind) || 0) + 1);
  }
  return counts;
}
/**
 * Telemetry in words: each number as its channel has it, with its name and unit where they are
 * said.
 * @param {Record<string, string>} it
 * @param {Channel[]} channels
 */
function telemetryText(it, channels) {
  const values = channels.flatMap(({ name, unit, of }, n) => {
    const sent = it[`a${n + 1}`];
    if (!sent) return [];
    const value = of(Number(sent)).toLocaleString("en", { maximumFractionDigits: 3 });
    return unit === "as sent" && name === `telemetry ${n + 1}` ? [sent]
      : [`${name} ${value}${/^(?:as sent|no unit said)$/.test(unit) ? "" : ` ${unit}`}`];
  });
  const number = it.telemetry_sequence ? `no. ${it.telemetry_sequence}: ` : "";
  return `${number}${values.join(", ")}; ${it.bits}`;
}
/**
 * What else is known of a thing.
 * @param {Thing} thing
 * @param {ArrayLike<number>} picks
 * @param {Channel[]} channels of its telemetry
 * @param {import("../net/settings.js").Settings} settings
 * @returns {Fact[]}
 */
export function detailLines(thing, picks, channels, settings) {
  const { rows, lastWeather, lastTelemetry } = thing;
  /** @type {Fact[]} */
  const facts = [];
  if (thing.kind === "station") {
    const kinds = [...kindsOf(thing, picks)].sort((a, b) => b[1] - a[1]);
    facts.push(["kinds", kinds.map(([kind, n]) => `${n.toLocaleString("en")} ${kind}`).join(", ")]);
  }
  if (lastWeather >= 0)
    facts.push(["weather",
      weatherWords(detailsOf(rows.record(lastWeather)), settings).join(", "), " at ",
      momentOf(rows.last[lastWeather], settings)]);
  if (lastTelemetry >= 0)
    facts.push(["telemetry", telemetryText(rows.record(lastTelemetry), channels), " at ",
      momentOf(rows.last[lastTelemetry], settings)]);
  return facts;
}
