// @ts-check
// Receivers: what each heard, and when.

import { eachSince } from "../util/tasks.js";

/** @typedef {import("./rows.js").Rows} Rows */
/** @typedef {import("./clock-offsets.js").Clock} Clock */
/**
 * A receiver: what it heard, and when.
 * @typedef {{ name: string, last: number, heard: number, alone: number,
 *   clock: Clock | null }} Receiver
 */
/**
 * A list of receivers by its number: how many rows it heard, and when the last of them began.
 * @typedef {{ n: number, names: string[], heard: number, began: number }} HeardList
 */
/**
 * How many rows each list of receivers heard since a moment.
 * @param {Rows} rows @param {number} since
 * @returns {Generator<unknown, HeardList[]>}
 */
export function* heardOf(rows, since) {
  /** @type {HeardList[]} */
  const lists = [];
  yield* eachSince(rows, since, k => {
    const n = rows.heard[k];
    const list = lists[n] ||= { n, names: rows.lists[n], heard: 0, began: -Infinity };
    list.heard++;
    list.began = Math.max(list.began, rows.first[k]);
  });
  return lists.filter(Boolean);
}
/**
 * When each receiver heard something last. Of a row it is known who heard it at its last moment;
 * the others heard it from its first one on.
 * @param {Rows} rows @param {number} since @param {HeardList[]} lists
 * @returns {Generator<unknown, Map<string, number>>}
 */
export function* lastsOf(rows, since, lists) {
  /** @type {Map<string, number>} */
  const lasts = new Map(), least = new Float64Array(rows.lists.length);
  const lastOf = (/** @type {string} */ name) => lasts.get(name) ?? -Infinity;
  for (const { names, began } of lists)
    for (const it of names) lasts.set(it, Math.max(lastOf(it), began));
  for (const { n, names } of lists)
    least[n] = names.reduce((moment, it) => Math.min(moment, lastOf(it)), Infinity);
  // few rows end behind what began last, and these alone are looked into
  yield* eachSince(rows, since, k => {
    if (rows.last[k] <= least[rows.heard[k]]) return;
    const { receiver } = rows.record(k);
    if (lasts.has(receiver)) lasts.set(receiver, Math.max(lastOf(receiver), rows.last[k]));
  });
  return lasts;
}
/**
 * Each receiver since a moment, and its clock.
 * @param {{ rows: Rows, clocks: Map<string, Clock> }} all @param {number} since
 * @returns {Generator<unknown, Receiver[]>}
 */
export function* receiversOf({ rows, clocks }, since) {
  /** @type {Map<string, Receiver>} */
  const receivers = new Map(), lists = yield* heardOf(rows, since);
  for (const [name, last] of yield* lastsOf(rows, since, lists))
    receivers.set(name, { name, last, heard: 0, alone: 0, clock: clocks.get(name) || null });
  for (const { names, heard } of lists)
    for (const name of names) {
      const it = /** @type {Receiver} */ (receivers.get(name));
      it.heard += heard;
      it.alone += names.length === 1 ? heard : 0;
    }
  return [...receivers.values()].sort((a, b) => a.name < b.name ? -1 : 1);
}
