// @ts-check
// The coasts of the world below the map (Natural Earth, in the public domain), as rings on a ball.

import { fromBase85 } from "../../formats/base85.js";
import { inflated } from "../../formats/gunzip.js";
import { RADIUS, vectorOf } from "../../geo/sphere.js";

/** @typedef {import("../../geo/projection.js").Projection} Projection */
/**
 * A coast: its places as vectors and in hundredths of a degree, and a cap around all of them.
 * @typedef {{ line: Float32Array, places: Int32Array, middle: number[], wide: number }} Ring
 */

/** A coast that may be off by more pixels than these is a line, and said to be rough. */
export const MOST_OFF = 8;
/**
 * Of fewer metres for a pixel the coast is a line that is said to be rough, and then nothing. A
 * tenth of it is off by more than 2.3 km.
 */
const ROUGH = 2300 / MOST_OFF, NONE = 10;
/** What is said of a coast that is drawn closer than its data are. */
export const ROUGH_COAST = "rough coast";

/** The numbers of packed bytes: seven bits of each byte, lower ones first, and then the sign. */
export class Numbers {
  /** @param {Uint8Array} bytes */
  constructor(bytes) {
    this.bytes = bytes;
    this.at = 0;
  }
  next() {
    let n = 0, by = 1, byte;
    do {
      byte = this.bytes[this.at++];
      n += (byte & 127) * by;
      by *= 128;
    } while (byte > 127);
    return n % 2 ? -(n + 1) / 2 : n / 2;
  }
  /** The places of each ring that is left: how many, then the steps from one to the next. */
  rings() {
    const rings = [];
    while (this.at < this.bytes.length) {
      const places = new Int32Array(2 * this.next());
      for (let k = 0, east = 0, north = 0; k < places.length; k += 2) {
        east += this.next();
        north += this.next();
        places[k] = east;
        places[k + 1] = north;
      }
      rings.push(places);
    }
    return rings;
  }
}
/**
 * The rings of packed bytes.
 * @param {Uint8Array} bytes
 */
export const ringsOf = bytes => new Numbers(bytes).rings().map(ringOf);
/**
 * @param {Int32Array} places
 * @returns {Ring}
 */
function ringOf(places) {
  const line = new Float32Array(places.length / 2 * 3), middle = [0, 0, 0];
  for (let k = 0; 2 * k < places.length; k++) {
    line.set(vectorOf(places[2 * k + 1] / 100, places[2 * k] / 100), 3 * k);
    for (const i of [0, 1, 2]) middle[i] += line[3 * k + i];
  }
  const long = Math.hypot(...middle) || 1;
  for (const i of [0, 1, 2]) middle[i] /= long;
  let wide = 0;
  for (let k = 0; k < line.length; k += 3)
    wide = Math.max(wide, Math.hypot(line[k] - middle[0], line[k + 1] - middle[1],
      line[k + 2] - middle[2]));
  return { line, places, middle, wide };
}
/** How often the way from a place to the north pole goes over a ring: odd within it. */
export function crossings(/** @type {Ring} */ { places }, /** @type {number} */ north,
  /** @type {number} */ east) {
  const turned = (/** @type {number} */ e) => ((e - 100 * east) % 36000 + 54000) % 36000 - 18000;
  let count = 0;
  const last = places.length - 2;
  for (let k = 0, a = turned(places[last]), n = places[last + 1]; k <= last; k += 2) {
    const b = turned(places[k]), m = places[k + 1];
    if (Math.abs(a - b) < 18000 && (a < 0) !== (b < 0) &&
      n + (m - n) * a / (a - b) > 100 * north) count++;
    [a, n] = [b, m];
  }
  return count;
}

/** The coasts, once they are unpacked. */
export class Land {
  constructor() {
    /** @type {Ring[]} */
    this.rings = [];
  }
  /**
   * Unpacks the coasts of a text in base85.
   * @param {string} text
   */
  async read(text) {
    if (text.trim()) this.rings = ringsOf(await inflated(fromBase85(text.trim())));
  }
  /**
   * The rings of which a part may be in view.
   * @param {Projection} view
   */
  inView(view) {
    const { width, height, scale } = view, half = Math.hypot(width, height) / 2;
    return this.rings.filter(({ middle, wide }) => {
      if (wide * scale < 1) return false;
      if (wide >= 0.3) return true;
      const near = view.put(middle), off = Math.hypot(view.x - width / 2, view.y - height / 2);
      return near && off - 1.6 * wide * scale < half;
    });
  }
  /**
   * Paints land, and says how exact it is. Where that is rough, land has its colour only if `fills`
   * says so.
   * @param {CanvasRenderingContext2D} pen
   * @param {Projection} view
   * @param {Record<string, string>} colours
   * @param {boolean} fills
   */
  paint(pen, view, colours, fills) {
    const pixel = RADIUS / view.scale, isRough = pixel < ROUGH;
    if (!this.rings.length || pixel < NONE) return "";
    const rings = this.inView(view);
    Object.assign(pen, { fillStyle: colours.land, strokeStyle: colours.shore, lineWidth: 0.8 });
    if (!isRough || fills) fill(pen, view, rings, !isRough);
    if (!isRough) return "";
    pen.setLineDash([6, 4]);
    pen.beginPath();
    for (const { line } of rings) traceInView(pen, view, line);
    pen.stroke();
    pen.setLineDash([]);
    return ROUGH_COAST;
  }
}
/**
 * Gives land its colour, and a line around it where `strokes` says so.
 * @param {CanvasRenderingContext2D} pen
 * @param {Projection} view
 * @param {Ring[]} rings
 * @param {boolean} strokes
 */
function fill(pen, view, rings, strokes) {
  const { middle } = view;
  let odd = 0;
  pen.beginPath();
  for (const ring of rings) {
    trace(pen, view, ring.line);
    odd += crossings(ring, -middle[0], middle[1] + 180);
  }
  if (strokes) pen.stroke();
  // where the other side of the earth is land, its rings enclose all but the land
  if (odd % 2) pen.arc(view.width / 2, view.height / 2, 2 * view.scale, 0, 2 * Math.PI);
  pen.fill("evenodd");
}
/**
 * On which side of the map a pixel lies; 0 on it, or near it.
 * @param {Projection} view
 */
const sideOf = ({ x, y, width, height }) =>
  x < -9 ? 1 : x > width + 9 ? 2 : y < -9 ? 3 : y > height + 9 ? 4 : 0;
/**
 * A ring as a path; places that are nearer than a pixel are one, and so are those that follow one
 * another on one side of the map.
 * @param {CanvasRenderingContext2D} pen
 * @param {Projection} view
 * @param {Float32Array} line
 */
function trace(pen, view, line) {
  let lastX = NaN, lastY = NaN, lastSide = 0;
  for (let k = 0; 3 * k < line.length; k++) {
    view.put(line, k);
    const { x, y } = view, side = sideOf(view), isBeside = side > 0 && side === lastSide;
    if (!isBeside && lastSide) pen.lineTo(lastX, lastY); // where it leaves that side
    if (!isBeside && Math.abs(x - lastX) + Math.abs(y - lastY) < 0.7) continue;
    [lastX, lastY, lastSide] = [x, y, side];
    if (!k) pen.moveTo(x, y);
    else if (!isBeside) pen.lineTo(x, y);
  }
  if (lastSide) pen.lineTo(lastX, lastY);
  pen.closePath();
}
/**
 * The parts of a ring that are in view as a path, since a pen gives up dashes on a long one.
 * @param {CanvasRenderingContext2D} pen
 * @param {Projection} view
 * @param {Float32Array} line
 */
function traceInView(pen, view, line) {
  const { width, height } = view, last = line.length / 3 - 1;
  view.put(line, last);
  let lastX = view.x, lastY = view.y;
  for (let k = 0; k <= last; k++) {
    view.put(line, k);
    const { x, y } = view;
    if (Math.max(x, lastX) >= 0 && Math.min(x, lastX) <= width && Math.max(y, lastY) >= 0 &&
      Math.min(y, lastY) <= height) {
      pen.moveTo(lastX, lastY);
      pen.lineTo(x, y);
    }
    [lastX, lastY] = [x, y];
  }
}
