// @ts-check
// Each reception of logs as a row of its own, where a book has one row for all copies: who repeated
// a frame is known of each copy alone. The n-th line has a moment two seconds after the one before
// it, under a gap of one second, so that no two are copies of one transmission.

import { joined } from "../formats/gunzip.js";
import { hasName, linesOf, longMoment } from "../formats/log-line.js";
import { textIn } from "../net/interning.js";
import { repeatsIn } from "../net/repeats.js";
import { tableOf } from "../net/table-lines.js";
import { inSlices, STEP } from "../util/tasks.js";
import { isoText } from "../util/time.js";
import { run } from "../worker/pool.js";
import { limits, sizeOfAll } from "../worker/sources.js";

/** Seconds of the gap, and from one line to the next. */
const GAP = 1, APART = 2;
/**
 * Steps that come to a value.
 * @template T
 * @typedef {import("../util/tasks.js").Steps<T>} Steps
 */
/**
 * What stands behind the moment of each line of logs, by its text; a line in either spelling of its
 * moment is one.
 * @param {Uint8Array[]} logs
 * @returns {Steps<Map<string, string>>}
 */
function* restsOf(logs) {
  const all = new Map();
  let n = 0;
  for (const log of logs)
    for (const it of linesOf(log)) {
      if (++n % STEP === 0) yield;
      if (!hasName(it)) continue;
      const rest = textIn(log, it.momentEnd, it.end);
      all.set(longMoment(textIn(log, it.begin, it.momentEnd)) + rest, rest);
    }
  return all;
}
/**
 * The lines of logs, each once in whichever spelling of its moment, as a log in which no two are
 * near each other.
 * @param {Uint8Array[]} logs
 * @returns {Steps<Uint8Array>}
 */
export function* apartLog(logs) {
  const all = yield* restsOf(logs), lines = [...all.keys()].sort(), parts = [];
  for (let at = 0; at < lines.length; at += STEP) {
    yield;
    parts.push(tableOf(lines.slice(at, at + STEP).map((line, n) =>
      `${isoText(APART * (at + n))}${all.get(line)}\n`).join("")));
  }
  return joined(parts);
}
/**
 * Who repeated whom by all receptions of these files; undefined where one of them is no log, they
 * are too large for that, or it isn't wanted any more.
 * @param {{ kind: string, taken: import("../worker/sources.js").Source | null }[]} files
 * @param {() => boolean} isWanted
 */
export async function repeatsBy(files, isWanted) {
  const logs = files.flatMap(it =>
    it.kind !== "book" && it.taken instanceof Uint8Array ? [it.taken] : []);
  if (logs.length < files.length || sizeOfAll(logs) > limits.alone) return undefined;
  const apart = await inSlices(apartLog(logs), isWanted);
  if (!apart) return undefined;
  const got = await run("rows", GAP, [apart], { lent: [apart] });
  return got.status ? undefined : inSlices(repeatsIn(got.bytes), isWanted);
}
