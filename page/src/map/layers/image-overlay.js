// @ts-check
// Pictures of maps that the reader lays on the earth by three of their corners.

import { vectorOf } from "../../geo/sphere.js";
import { drawAt } from "./tile-layer.js";

/** @typedef {import("../../geo/projection.js").Projection} Projection */
/** The least sine of the angle at a corner; how long a side is at most, in radii of the earth. */
const LEAST_SINE = 0.05, MOST = 0.2;
/**
 * A picture, and three of its corners as vectors: upper left, upper right, lower left.
 * @typedef {{ name: string, picture: ImageBitmap, corners: number[][] }} ImageOverlay
 */

const NUMBER = "([+-]?\\d+(?:\\.\\d+)?)";
const PLACE = new RegExp(`^\\s*${NUMBER}\\s*[,;\\s]\\s*${NUMBER}\\s*$`);
/**
 * A place of degrees north and east, such as `54.5, -3.6`; throws where it is none.
 * @param {string} text
 */
export function placeIn(text) {
  const [, north, east] = (PLACE.exec(text) || []).map(Number);
  if (!(Math.abs(north) <= 90 && Math.abs(east) <= 180))
    throw new Error(`a corner is written as 54.5, -3.6, and not as ${text.trim() || "nothing"}`);
  return vectorOf(north, east);
}
/**
 * Three corners of three texts; throws where they are none, or lie in one line.
 * @param {string[]} texts
 */
export function cornersOf(texts) {
  const corners = texts.map(placeIn), [a, b, c] = corners;
  const across = [0, 1, 2].map(k => b[k] - a[k]), down = [0, 1, 2].map(k => c[k] - a[k]);
  const area = Math.hypot(across[1] * down[2] - across[2] * down[1],
    across[2] * down[0] - across[0] * down[2], across[0] * down[1] - across[1] * down[0]);
  const wide = Math.hypot(...across), high = Math.hypot(...down);
  if (!(area > LEAST_SINE * wide * high)) throw new Error("the three corners lie in one line");
  if (Math.max(wide, high) > MOST)
    throw new Error("the corners are more than 1,200 km apart");
  return corners;
}
/**
 * Six lines of a world file, such as .pgw, as three corners of a picture so wide and high: degrees
 * east and north for a pixel, and the middle of the first. Null where the text is none, or isn't in
 * degrees.
 * @param {string} text
 * @param {{ width: number, height: number }} size
 */
export function cornersIn(text, { width, height }) {
  const numbers = text.trim().split(/\s+/).map(Number), [a, d, b, e, east, north] = numbers;
  if (numbers.length !== 6 || !numbers.every(Number.isFinite)) return null;
  const at = (/** @type {number} */ x, /** @type {number} */ y) =>
    [north + d * (x - 0.5) + e * (y - 0.5), east + a * (x - 0.5) + b * (y - 0.5)];
  const corners = [at(0, 0), at(width, 0), at(0, height)];
  return corners.every(([n, f]) => Math.abs(n) <= 90 && Math.abs(f) <= 180)
    ? corners.map(it => it.map(value => +value.toFixed(7)).join(", ")) : null;
}
/** The pictures that the reader laid on the earth. */
export class ImageOverlays {
  constructor() {
    /** @type {ImageOverlay[]} */
    this.all = [];
  }
  /**
   * Draws those that are on this side of the earth.
   * @param {import("./layer.js").Context} context
   * @param {Projection} view
   */
  paint({ pen }, view) {
    pen.save();
    for (const { picture, corners } of this.all) {
      const spots = corners.map(it => [view.put(it), view.x, view.y]);
      if (spots.every(it => it[0]))
        drawAt(pen, picture, spots.map(([, x, y]) => [Number(x), Number(y)]), 0);
    }
    pen.restore();
  }
}
