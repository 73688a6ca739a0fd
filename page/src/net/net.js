// @ts-check
// The net that the tables tell of: what is shown of a part of the time, and what stays in sight.

import { clocksOf, isOff, pairsOf } from "./clock-offsets.js";
import { heardOf, lastsOf, receiversOf } from "./receivers.js";
import { kindIn, nameIn } from "./rows.js";
import { thingsOf } from "./things.js";
import { each, eachSince } from "../util/tasks.js";

/** @typedef {import("./rows.js").Rows} Rows */
/** @typedef {import("./rows.js").Picks} Picks */
/** @typedef {import("./things.js").Thing} Thing */
/** @typedef {import("./receivers.js").Receiver} Receiver */
/** @typedef {import("./message-table.js").Message} Message */
/** @typedef {import("./clock-offsets.js").Clock} Clock */
/**
 * What was read of the tables: receivers' clocks by all that they heard, and the moment to which
 * ages count, in seconds.
 * @typedef {{ rows: Rows, messages: Message[], clocks: Map<string, Clock>, end: number }} All
 */
/**
 * What stays in sight whatever part of the time is shown: when each station was last heard at all,
 * when each receiver last heard something, who is in need, and all messages.
 * @typedef {{ stations: Heard[], ears: { name: string, last: number }[], needy: Thing[],
 *   messages: Message[] }} Whole
 */
/**
 * When a station was last heard, by clocks that aren't known to be wrong.
 * @typedef {{ key: string, kind: string, name: string, heardAt: number }} Heard
 */
/**
 * A net since a moment: the numbers of its rows, when the first and the last was heard, and what
 * they tell of; `others` are rows of a kind that the page doesn't know.
 * @typedef {{ rows: Picks, since: number, begin: number, end: number, things: Thing[],
 *   placed: Thing[], others: number, messages: Message[], bulletins: Message[],
 *   receivers: Receiver[], whole: Whole }} Net
 */

/**
 * What the tables say, with receivers' clocks. Ages count to the last moment at which somebody
 * heard something whose clock isn't known to be wrong.
 * @param {Rows} rows @param {Message[]} messages @param {number} gap
 * @returns {Generator<unknown, All>}
 */
export function* allOf(rows, messages, gap) {
  const heard = yield* heardOf(rows, -Infinity);
  const clocks = clocksOf(yield* pairsOf(rows, -Infinity, heard), gap);
  const wrong = [...clocks].filter(([, it]) => isOff(it, gap));
  rows.takeAheads(new Map(wrong.map(([name, it]) => [name, it.by])));
  let end = -Infinity;
  if (wrong.length) yield* eachSince(rows, -Infinity, k => {
    if (!rows.ahead[rows.heard[k]]) end = Math.max(end, rows.last[k]);
  });
  return { rows, messages, clocks, end: end > -Infinity ? end : rows.until };
}

/**
 * When each station was last heard, and which ones were ever in need.
 * @param {Rows} rows
 * @returns {Generator<unknown, { stations: Heard[], urgent: Set<number> }>}
 */
function* lastOf(rows) {
  const last = new Float64Array(rows.things.length).fill(-Infinity), urgent = new Set();
  yield* eachSince(rows, -Infinity, k => {
    const n = rows.station[k], at = rows.heardAt(k), gate = rows.gate[k] - 1;
    if (at > last[n]) last[n] = at;
    if (gate >= 0 && at > last[gate]) last[gate] = at;
    if (rows.urgent[k]) urgent.add(n);
  });
  const stations = rows.things.map((key, n) =>
    ({ key, kind: kindIn(key), name: nameIn(key), heardAt: last[n] }));
  return { stations: stations.filter(it => it.heardAt > -Infinity), urgent };
}
/**
 * What wants doing of all the time, of which a part is shown. Of most stations it is enough when
 * they were heard.
 * @param {All} all @returns {Generator<unknown, Whole>}
 */
function* wholeOf({ rows, messages }) {
  const { stations, urgent } = yield* lastOf(rows);
  const lists = yield* heardOf(rows, -Infinity), lasts = yield* lastsOf(rows, -Infinity, lists);
  const picks = urgent.size ? rows.order.filter(k => urgent.has(rows.station[k])) : [];
  const things = yield* thingsOf(rows, picks, run => each(picks, run));
  const needy = things.filter(it => it.lastUrgent >= 0);
  return { stations, ears: [...lasts].map(([name, last]) => ({ name, last })), needy,
    messages: messages.filter(it => it.isTraffic) };
}
/**
 * All of the net that was heard since a moment, but who heard whom.
 * @param {All} all @param {number} since
 * @returns {Generator<unknown, Net>}
 */
export function* netOf(all, since) {
  const { rows } = all, picks = rows.since(since), some = picks.length > 0;
  // they stand by their first moment, and the last of all is one of them
  const begin = some ? rows.first[picks[0]] : Infinity, end = some ? rows.until : -Infinity;
  const messages = all.messages.filter(it => it.last >= since);
  const things = yield* thingsOf(rows, picks, run => eachSince(rows, since, run));
  const placed = things.filter(it => it.lastPlace >= 0);
  for (const it of placed) yield it.track; // it is kept
  let others = 0;
  yield* eachSince(rows, since, k => { if (rows.is(k, "other")) others++; });
  const traffic = messages.filter(it => it.isTraffic);
  const receivers = yield* receiversOf(all, since);
  const whole = since > -Infinity ? yield* wholeOf(all) : { needy: things, messages: traffic,
    ears: receivers, stations: things.filter(it => it.kind === "station") };
  return { rows: picks, since, begin, end, things, placed, others, messages: traffic,
    bulletins: messages.filter(it => it.isBulletin), whole, receivers };
}
