// @ts-check
// How dense marks are, as squares that are darker where there are more of them.

import { count } from "../util/text.js";

/** The side of a square in which marks are counted, in pixels; more marks than these may be. */
const SQUARE = 10, FEW = 500;
/**
 * How many marks stand in each square of the map; the squares move with the map.
 * @param {{ x: number, y: number }[]} marks
 * @param {{ width: number, height: number }} view
 * @param {{ x: number, y: number }} anchor
 */
export function densityOf(marks, { width, height }, anchor) {
  const off = (/** @type {number} */ at) => ((at % SQUARE) + SQUARE) % SQUARE - SQUARE;
  const left = off(anchor.x), top = off(anchor.y), across = Math.ceil(width / SQUARE) + 2;
  const counts = new Uint32Array(across * (Math.ceil(height / SQUARE) + 2));
  let most = 0, taken = 0;
  for (const { x, y } of marks) {
    const column = Math.max(0, Math.min(across - 1, Math.floor((x - left) / SQUARE)));
    const at = column + across * Math.max(0, Math.floor((y - top) / SQUARE));
    if (at >= counts.length) continue;
    if (!counts[at]++) taken++;
    most = Math.max(most, counts[at]);
  }
  return { counts, across, left, top, most, taken };
}
/** @typedef {ReturnType<typeof densityOf>} Density */
/**
 * Whether so many marks say more as density: they are many, and two stand in a square or more.
 * @param {number} marks
 * @param {Density} density
 */
export const isDense = (marks, { taken }) => marks > FEW && 2 * taken < marks;
/** How much is seen of a square with so many marks. */
const shareOf = (/** @type {number} */ n, /** @type {number} */ most) =>
  0.15 + 0.75 * Math.log(1 + n) / Math.log(1 + most);
/**
 * Paints squares, darker where there are more marks.
 * @param {CanvasRenderingContext2D} pen
 * @param {Density} density
 * @param {string} colour
 */
export function paintDensity(pen, { counts, across, left, top, most }, colour) {
  pen.fillStyle = colour;
  for (let at = 0; at < counts.length; at++) {
    if (!counts[at]) continue;
    pen.globalAlpha = shareOf(counts[at], most);
    pen.fillRect(Math.round(left + at % across * SQUARE),
      Math.round(top + Math.floor(at / across) * SQUARE), SQUARE - 1, SQUARE - 1);
  }
  pen.globalAlpha = 1;
}
/** @param {Density} density */
export const densityText = ({ most }) =>
  `Each square has 1 to ${count(most, "mark")}. Tracks are shown closer.`;
