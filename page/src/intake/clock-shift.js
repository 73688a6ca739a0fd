// @ts-check
// Receivers' clocks that are put right: the moments of their lines of a log are moved.

import { joined } from "../formats/gunzip.js";
import { hasName, linesOf } from "../formats/log-line.js";
import { textIn, Words } from "../net/interning.js";
import { LAST_MILLISECOND } from "../util/limits.js";

/** So many bytes become text at once. */
const PIECE = 2 ** 18;
const LINE = 10;

/**
 * The receivers of lines.
 * @param {Uint8Array} bytes
 */
function namesIn(bytes) {
  /** @type {Set<string>} */
  const found = new Set(), names = new Words(bytes, it => { found.add(it); });
  for (const it of linesOf(bytes)) if (hasName(it)) names.of(it.nameBegin, it.nameEnd);
  return found;
}
/**
 * The receivers of each log that was asked for.
 * @type {WeakMap<Uint8Array, Set<string>>}
 */
const known = new WeakMap();
/**
 * The receivers of a log, which is looked through once.
 * @param {Uint8Array} bytes
 */
export function receiversIn(bytes) {
  const found = known.get(bytes) || namesIn(bytes);
  known.set(bytes, found);
  return found;
}
/**
 * The receivers of a log whose lines would be moved.
 * @param {Uint8Array} bytes
 * @param {Map<string, number>} shifts
 */
export const movedIn = (bytes, shifts) =>
  [...shifts.keys()].filter(it => receiversIn(bytes).has(it));
/**
 * Lines with each receiver's moments moved by so many seconds.
 * @param {Uint8Array} bytes @param {Map<string, number>} shifts
 */
function movedText(bytes, shifts) {
  const names = new Words(bytes, it => shifts.get(it) || 0);
  let text = "";
  for (const it of linesOf(bytes)) {
    const by = hasName(it) ? names.of(it.nameBegin, it.nameEnd) : 0;
    const moment = by ? Date.parse(textIn(bytes, it.begin, it.momentEnd)) : NaN;
    const to = moment + Math.round(1000 * by), isMoved = to >= 0 && to <= LAST_MILLISECOND;
    text += isMoved ? new Date(to).toISOString() + textIn(bytes, it.momentEnd, it.next)
      : textIn(bytes, it.begin, it.next);
  }
  return text;
}
/**
 * A log, which is ASCII, with each receiver's moments moved by so many seconds; what has no such
 * moment, or would leave the years that a log can have, stays as it is.
 * @param {Uint8Array} bytes
 * @param {Map<string, number>} shifts
 * @returns {import("../util/tasks.js").Steps<Uint8Array>}
 */
export function* shifting(bytes, shifts) {
  const parts = [], encoder = new TextEncoder();
  let isMoved = false;
  for (let at = 0, end = 0; at < bytes.length; at = end) {
    end = bytes.indexOf(LINE, at + PIECE) + 1 || bytes.length;
    const piece = bytes.subarray(at, end), names = namesIn(piece);
    const has = [...shifts.keys()].some(it => names.has(it));
    parts.push(has ? encoder.encode(movedText(piece, shifts)) : piece);
    isMoved ||= has;
    yield;
  }
  return isMoved ? joined(parts) : bytes;
}
