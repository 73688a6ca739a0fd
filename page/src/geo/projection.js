// @ts-check
// The map is Lambert's azimuthal projection, with areas kept, around the middle of the view.

import { degreesOf, frameAt, vectorOf } from "./sphere.js";

/** The greatest scale of a map, in pixels for a radian. */
export const NEAREST = 6.4e7;

/**
 * The places of a line that are in a cap.
 * @param {Float64Array} line
 * @param {(line: ArrayLike<number>, n: number) => boolean} isIn
 */
function within(line, isIn) {
  const kept = new Float64Array(line.length);
  let n = 0;
  for (let k = 0; 3 * k < line.length; k++) {
    if (!isIn(line, k)) continue;
    kept[n++] = line[3 * k];
    kept[n++] = line[3 * k + 1];
    kept[n++] = line[3 * k + 2];
  }
  return n === line.length ? line : kept.subarray(0, n);
}

/** Between the earth and the pixels of a map. `scale` is pixels for a radian. */
export class Projection {
  constructor() {
    this.width = 1;
    this.height = 1;
    this.scale = 1;
    this.x = 0;
    this.y = 0;
    /** @type {[number, number]} north and east */
    this.middle = [0, 0];
    this.centre = [1, 0, 0];
    this.frame = frameAt(0, 0);
  }
  /**
   * @param {number} north
   * @param {number} east
   */
  look(north, east) {
    this.middle = [Math.max(-90, Math.min(90, north)), east];
    this.centre = vectorOf(...this.middle);
    this.frame = frameAt(...this.middle);
  }
  /**
   * Puts the pixel of the nth place of a line into x and y; says whether it is on this side of the
   * earth. A line has x, y, z of its places after each other, as a vector has of one.
   * @param {ArrayLike<number>} line
   */
  put(line, n = 0) {
    const a = line[3 * n], b = line[3 * n + 1], c = line[3 * n + 2], { centre } = this;
    const { east, north } = this.frame, near = centre[0] * a + centre[1] * b + centre[2] * c;
    const k = this.scale * Math.sqrt(2 / Math.max(1e-9, 1 + near));
    this.x = this.width / 2 + k * (east[0] * a + east[1] * b + east[2] * c);
    this.y = this.height / 2 - k * (north[0] * a + north[1] * b + north[2] * c);
    return near > -0.9;
  }
  /**
   * The place under a pixel; beyond the earth's rim, that of the rim.
   * @param {number} x
   * @param {number} y
   */
  at(x, y) {
    const right = (x - this.width / 2) / this.scale, up = (this.height / 2 - y) / this.scale;
    const out = Math.hypot(right, up), angle = 2 * Math.asin(Math.min(1, out / 2));
    if (out < 1e-12) return [...this.centre];
    const [a, b, c] = [Math.cos(angle), Math.sin(angle) * right / out, Math.sin(angle) * up / out];
    return [0, 1, 2].map(k =>
      a * this.centre[k] + b * this.frame.east[k] + c * this.frame.north[k]);
  }
  /**
   * Moves the picture so many pixels to the right and down.
   * @param {number} right
   * @param {number} down
   */
  move(right, down) {
    const [north, east] = degreesOf(this.at(this.width / 2 - right, this.height / 2 - down));
    this.look(north, east);
  }
  /**
   * Zooms, and the place under that pixel stays there.
   * @param {number} by
   */
  zoom(by, x = this.width / 2, y = this.height / 2) {
    const under = this.at(x, y);
    this.scale = Math.min(NEAREST, Math.max(60, this.scale * by));
    for (let turn = 0; turn < 2; turn++) {
      this.put(under);
      this.move(x - this.x, y - this.y);
    }
  }
  /**
   * Looks at all places of these lines that are in a cap.
   * @param {Float64Array[]} all
   * @param {(line: ArrayLike<number>, n: number) => boolean} [isIn]
   */
  fit(all, isIn = () => true) {
    const lines = all.map(it => within(it, isIn));
    const sum = [0, 0, 0];
    for (const line of lines) for (let k = 0; k < line.length; k++) sum[k % 3] += line[k];
    const [north, east] = lines.some(it => it.length) ? degreesOf(sum) : [0, 0];
    this.look(north, east);
    this.scale = Math.min(this.width, this.height) / 4;
    // around the earth: from above the equator both poles are seen
    if (this.box(lines).hidden) return this.look(0, this.middle[1]);
    for (let turn = 0; turn < 4; turn++) {
      const { left, right, top, bottom } = this.box(lines);
      this.move(this.width / 2 - (left + right) / 2, this.height / 2 - (top + bottom) / 2);
      const wide = Math.max((right - left) / this.scale, 6e-5);
      const high = Math.max((bottom - top) / this.scale, 6e-5);
      this.scale = Math.max(60, Math.min(Math.max(50, this.width - 130) / wide,
        Math.max(50, this.height - 90) / high));
    }
  }
  /**
   * The pixels between which these lines lie, and whether one of their places is hidden.
   * @param {Float64Array[]} lines
   */
  box(lines) {
    const box = { left: Infinity, right: -Infinity, top: Infinity, bottom: -Infinity,
      hidden: false };
    for (const line of lines)
      for (let k = 0; 3 * k < line.length; k++) {
        if (!this.put(line, k)) {
          box.hidden = true;
          continue;
        }
        box.left = Math.min(box.left, this.x);
        box.right = Math.max(box.right, this.x);
        box.top = Math.min(box.top, this.y);
        box.bottom = Math.max(box.bottom, this.y);
      }
    if (box.left <= box.right) return box;
    return { ...box, left: 0, right: this.width, top: 0, bottom: this.height };
  }
}
