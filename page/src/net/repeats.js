// @ts-check
// Who repeated whom, as `aprs-net keeper` counts it: of each reception, the digipeaters that the
// frame passed, each with whom it repeated, a station or the digipeater before it. A frame is
// counted once, by the receiver that heard most.

import { Lines } from "./table-lines.js";
import { STEP } from "../util/tasks.js";

/** What stands for any digipeater, and names none. */
const ALIAS = /^(?:(?:WIDE|TRACE)[0-9]?(?:-[0-9]+)?|RELAY|ECHO|GATE)$/;
/**
 * Who repeated a frame, in order; what names no digipeater only where nothing else is there.
 * @param {string[]} path
 */
export function digipeatersOf(path) {
  const used = path.filter(it => it.endsWith("*")).map(it => it.slice(0, -1));
  const named = used.filter(it => !ALIAS.test(it));
  return named.length ? named : used.slice(-1);
}
/**
 * A line for each digipeater and whom it repeated, of a table that has a row for each reception:
 * both, and how many frames.
 * @param {Uint8Array} bytes
 * @returns {Generator<unknown, string>}
 */
export function* repeatsIn(bytes) {
  const lines = new Lines(bytes);
  const counts = /** @type {Map<string, Map<string, number>>} */ (new Map());
  const [source, via, gate, receiver] = ["source", "via", "gate", "receiver"]
    .map(it => lines.names.indexOf(it));
  for (let n = 1; lines.next(); n++) {
    if (n % STEP === 0) yield;
    const path = lines.field(via);
    // the path of a frame that was passed on isn't one on the air
    if (!path.includes("*") || lines.has(gate)) continue;
    let before = lines.field(source);
    for (const it of digipeatersOf(path.split(","))) {
      const key = [it, before].join("\t"), by = counts.get(key) || new Map();
      const name = lines.field(receiver);
      counts.set(key, by.set(name, (by.get(name) || 0) + 1));
      before = it;
    }
  }
  return [...counts].map(([key, by]) => [key, Math.max(...by.values())].join("\t") + "\n")
    .sort().join("");
}
