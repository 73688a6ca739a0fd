// @ts-check
// Logs that were dropped and whose handles the browser gave are read again as they grow, so that a
// page that was opened from a disk goes on.

import { goOnFromHere } from "../app/header.js";
import { alive, isServed, tick } from "../app/live.js";
import { page } from "../app/state.js";
import { add } from "./adding.js";
import { files } from "./file-table.js";
import { fileBy } from "./folders.js";
import { markOf } from "./intake.js";

/** How often handles are asked, in milliseconds. */
export const pace = { each: 5000 };
let isReading = false;

/**
 * The file of a log, where it has changed since it was read.
 * @param {import("./intake.js").Given} log
 */
async function changedOf(log) {
  const file = log.handle ? await fileBy(log.handle) : null;
  if (!file || markOf(file) === log.mark) return [];
  log.mark = markOf(file);
  return [file];
}
/** Reads what has grown; from then on ages count to now. */
export async function reread() {
  const logs = files.filter(it => it.handle);
  if (isReading || !logs.length) return;
  isReading = true;
  const grown = (await Promise.all(logs.map(changedOf))).flat();
  if (grown.length) {
    goOnFromHere();
    page.follows = true;
    await add(grown);
  }
  if (page.follows) alive.answered = Date.now();
  isReading = false;
}
/** Begins to ask, where there are no logs of a server. */
export function beginRereading() {
  if (!("getAsFileSystemHandle" in (globalThis.DataTransferItem?.prototype || {}))) return;
  setInterval(reread, pace.each);
  setInterval(() => page.follows && !isServed() && tick(), 1000);
}
