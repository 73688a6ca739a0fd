// @ts-check
// Where the parts of a log's line stand: a moment of 20 or 24 bytes, a receiver's name and a frame,
// with a blank between two of them. Whether a line is right is for the module to say.

import { MOST_NAME } from "../util/limits.js";

/** The bytes of a moment in whole seconds, and of one with milliseconds. */
const SHORT = 20, LONG = 24;
const LINE = 10, BLANK = 32, POINT = 46;

/**
 * A line of a log: where it begins, where its moment ends, where its receiver's name begins and
 * ends, where it ends, and where the next one begins. A name of no bytes is none.
 * @typedef {{ begin: number, momentEnd: number, nameBegin: number, nameEnd: number, end: number,
 *   next: number }} LogLine
 */
/**
 * Where a receiver's name ends that would begin at a place; there, if it is none.
 * @param {Uint8Array} log @param {number} begin @param {number} end of the line
 */
function nameEndOf(log, begin, end) {
  const most = Math.min(end, begin + MOST_NAME + 1);
  let at = begin;
  while (at < most && log[at] !== BLANK) at++;
  return at < most ? at : begin;
}
/**
 * The lines of a log.
 * @param {Uint8Array} log
 * @returns {Generator<LogLine>}
 */
export function* linesOf(log) {
  for (let begin = 0; begin < log.length;) {
    const next = log.indexOf(LINE, begin) + 1 || log.length;
    const end = log[next - 1] === LINE ? next - 1 : next;
    const size = log[begin + SHORT - 1] === POINT ? LONG : SHORT;
    const momentEnd = Math.min(end, begin + size), nameBegin = Math.min(end, momentEnd + 1);
    yield { begin, momentEnd, nameBegin, nameEnd: nameEndOf(log, nameBegin, end), end, next };
    begin = next;
  }
}
/** @param {LogLine} line */
export const hasName = line => line.nameEnd > line.nameBegin;
/** A moment of a line with its milliseconds, also where it is in whole seconds. */
export const longMoment = (/** @type {string} */ moment) =>
  moment.length === SHORT ? `${moment.slice(0, -1)}.000Z` : moment;
