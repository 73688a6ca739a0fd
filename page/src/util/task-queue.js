// @ts-check
// Steps that wait until the page has been painted.

import { atOnce, SLICE } from "./tasks.js";

/**
 * Steps that come to a value.
 * @template T
 * @typedef {import("./tasks.js").Steps<T>} Steps
 */
/** @type {{ key: string, steps: Steps<unknown> }[]} */
const waiting = [];
/** @type {ReturnType<typeof setTimeout> | undefined} */
let timer;
/**
 * Takes steps once the page has been painted, after those that wait; `key` is their name.
 * @param {string} key
 * @param {Steps<unknown>} steps
 */
export function later(key, steps) {
  const before = waiting.findIndex(it => it.key === key);
  if (before >= 0) waiting.splice(before, 1);
  waiting.push({ key, steps });
  if (timer === undefined) timer = setTimeout(runWaiting, 30);
}
function runWaiting() {
  const until = performance.now() + SLICE;
  timer = undefined;
  do {
    const first = waiting[0];
    if (first?.steps.next().done && waiting[0] === first) waiting.shift();
  } while (waiting.length && performance.now() < until);
  if (waiting.length && timer === undefined) timer = setTimeout(runWaiting);
}
/** Takes at once all steps that wait, for paper. */
export function runAllWaiting() {
  for (let it; (it = waiting.shift());) atOnce(it.steps);
}
