// @ts-check
// Who heard whom, who alone, and who repeated whom.

import { digipeatersOf } from "./repeats.js";
import { nameIn } from "./rows.js";
import { eachSince } from "../util/tasks.js";

/** @typedef {import("./rows.js").Rows} Rows */
/**
 * Who heard whom, who alone, who repeated whom, and how much each station sent.
 * @typedef {{ heard: Pairs, alone: Pairs, repeated: Pairs, sent: Map<string, number> }} Hearings
 */

/** How many of a thing there are for each pair of names. */
export class Pairs {
  constructor() {
    /** @type {Map<string, Map<string, number>>} */
    this.counts = new Map();
    /** @type {Set<string>} */
    this.columns = new Set();
  }
  /** @param {string} row @param {string} column */
  add(row, column, n = 1) {
    let of = this.counts.get(row);
    if (!of) this.counts.set(row, of = new Map());
    of.set(column, (of.get(column) || 0) + n);
    this.columns.add(column);
  }
  /** @param {string} row @param {string} column */
  get(row, column) {
    return this.counts.get(row)?.get(column) || 0;
  }
}

/**
 * Who repeated whom, of the lines of all receptions.
 * @param {string} text
 */
export function repeatsOf(text) {
  const repeated = new Pairs();
  for (const line of text.split("\n").filter(Boolean)) {
    const [digipeater, before, frames] = line.split("\t");
    for (const source of [before, "all"]) repeated.add(source, digipeater, Number(frames));
  }
  return repeated;
}
/**
 * How many rows there are of each station and list of names, such as the receivers; of those that
 * are wanted.
 * @param {Rows} rows @param {number} since @param {Uint32Array} column
 * @param {(k: number) => boolean} isWanted
 * @returns {Generator<unknown, [string, string[], number][]>}
 */
function* countLists(rows, since, column, isWanted = () => true) {
  const counts = new Map(), { station } = rows, many = rows.lists.length;
  yield* eachSince(rows, since, k => {
    if (!isWanted(k)) return;
    const key = station[k] * many + column[k];
    counts.set(key, (counts.get(key) || 0) + 1);
  });
  return [...counts].map(([key, n]) =>
    [nameIn(rows.things[Math.floor(key / many)]), rows.lists[key % many], n]);
}
/**
 * Who heard whom since a moment, who alone, and who repeated whom; `all` is the sum over the
 * stations.
 * @param {Rows} rows @param {number} since
 * @returns {Generator<unknown, Hearings>}
 */
export function* hearings(rows, since) {
  const heard = new Pairs(), alone = new Pairs(), repeated = new Pairs(), sent = new Map();
  for (const [name, list, n] of yield* countLists(rows, since, rows.heard))
    for (const source of [name, "all"]) {
      sent.set(source, (sent.get(source) || 0) + n);
      for (const receiver of list) heard.add(source, receiver, n);
      if (list.length === 1) alone.add(source, list[0], n);
    }
  // the path of a frame that was passed on isn't one on the air
  const isOwn = (/** @type {number} */ k) => !rows.gate[k];
  for (const [name, list, n] of yield* countLists(rows, since, rows.via, isOwn))
    digipeatersOf(list).reduce((before, digipeater) => {
      for (const source of [before, "all"]) repeated.add(source, digipeater, n);
      return digipeater;
    }, name);
  return { heard, alone, repeated, sent };
}
