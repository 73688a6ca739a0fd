// @ts-check
// The merge of inputs. Large ones are merged in parts, each with the book of those before it: that
// gives the same book, and what several receivers heard is there once for the next part.

import { run } from "../worker/pool.js";
import { limits, sizeOf, sizeOfAll } from "../worker/sources.js";

/** @typedef {import("../worker/sources.js").Source} Source */
/** @typedef {import("../worker/pool.js").Got} Got */
/**
 * How many inputs each part has, the first at least two.
 * @param {Source[]} inputs
 */
export function partsOf(inputs) {
  const total = sizeOfAll(inputs), most = total / Math.ceil(total / limits.together || 1);
  const parts = [0];
  let size = 0;
  for (const [k, it] of inputs.entries()) {
    if (k > 1 && size >= most) {
      parts.push(0);
      size = 0;
    }
    parts[parts.length - 1]++;
    size += sizeOf(it);
  }
  return parts;
}
/**
 * What a merge of inputs gives. A fault's input is -1 where it is none of these.
 * @param {Source[]} inputs @param {number} gap @param {Source[]} lent
 * @param {(share: number) => void} tellShare
 * @returns {Promise<Got>}
 */
export async function merged(inputs, gap, lent, tellShare) {
  const parts = partsOf(inputs);
  /** @type {Source[]} */
  let before = [];
  for (let from = 0, n = 0; ; n++) {
    const own = inputs.slice(from, from + parts[n]);
    const got = await run("merge", gap, [...before, ...own], { lent: [...lent, ...before] });
    if (got.status)
      return { ...got, input: got.input < before.length ? -1 : from + got.input - before.length };
    if (n === parts.length - 1) return got;
    from += parts[n];
    before = [got.bytes];
    tellShare((n + 1) / parts.length);
  }
}
