// @ts-check
// A fine coast within a box, which the tool cuts for the page of an event (GSHHG, LGPL). It lies
// above the coast of the world.

import { unpacked } from "../../formats/gunzip.js";
import { RADIUS, vectorOf } from "../../geo/sphere.js";
import { MOST_OFF, Numbers, ROUGH_COAST } from "./coastline.js";

/** @typedef {import("../../geo/projection.js").Projection} Projection */
/**
 * A ring: its places as vectors, and whether the way to the nth is a side of the box, no coast.
 * @typedef {{ line: Float32Array, isSide: boolean[] }} Ring
 */

/**
 * A coast within a box, and by how many metres it may be off.
 * @typedef {{ box: Float32Array, off: number, rings: Ring[] }} Within
 */

/** A coast that may be off by more pixels than these isn't drawn. */
const NONE_OFF = 5 * MOST_OFF;
/** So many steps has a side of the box, as the tool writes it. */
const STEPS = 16;

/**
 * The places of a line as vectors.
 * @param {ArrayLike<number>} places east and north by turns, so many a degree as `unit` says
 * @param {number} unit
 */
function vectorsOf(places, unit) {
  const line = new Float32Array(places.length / 2 * 3);
  for (let k = 0; 2 * k < places.length; k++)
    line.set(vectorOf(places[2 * k + 1] / unit, places[2 * k] / unit), 3 * k);
  return line;
}
/**
 * What packed bytes have: numbers for a degree, the box, the metres that it may be off, and rings.
 * @param {Uint8Array} bytes
 * @returns {Within}
 */
export function shoreOf(bytes) {
  const numbers = new Numbers(bytes);
  const [unit, west, south, east, north, off] = Array.from({ length: 6 }, () => numbers.next());
  const along = (/** @type {number} */ a, /** @type {number} */ b, /** @type {number} */ k) =>
    a + (b - a) * k / STEPS;
  const steps = Array.from({ length: STEPS }, (_, k) => k);
  const around = [...steps.flatMap(k => [along(west, east, k), south]),
    ...steps.flatMap(k => [east, along(south, north, k)]),
    ...steps.flatMap(k => [along(east, west, k), north]),
    ...steps.flatMap(k => [west, along(north, south, k)])];
  const rings = numbers.rings().map(places => {
    const isSide = Array.from({ length: places.length / 2 }, (_, k) => {
      const [a, n, b, m] = [...places.slice(2 * k, 2 * k + 2), ...(k ?
        places.slice(2 * k - 2, 2 * k) : places.slice(-2))];
      return a === b && (a === west || a === east) || n === m && (n === south || n === north);
    });
    return { line: vectorsOf(places, unit), isSide };
  });
  return { box: vectorsOf(around, unit), off, rings };
}

export class Shore {
  constructor() {
    this.text = "";
    /** @type {Within | null} */
    this.of = null;
  }
  /**
   * Unpacks a coast of a text in base64, or none; says whether it is another than before.
   * @param {string} text
   */
  async read(text) {
    if (text === this.text) return false;
    this.text = text;
    const read = text ? shoreOf(await unpacked(text)) : null;
    if (text === this.text) this.of = read;
    return true;
  }
  /**
   * Paints land and water within the box, and says how exact that is where it is all of the map, or
   * null where it isn't.
   * @param {CanvasRenderingContext2D} pen
   * @param {Projection} view
   * @param {Record<string, string>} colours
   */
  paint(pen, view, colours) {
    if (!this.of) return null;
    const { box, rings } = this.of, corners = spotsOf(view, box);
    // in pixels
    const off = this.of.off * view.scale / RADIUS, isDrawn = off <= NONE_OFF;
    if (!view.put(box) || !isNear(view, corners)) return null;
    const isAll = isAround(view, corners);
    pen.save();
    pen.beginPath();
    trace(pen, corners);
    pen.clip();
    pen.fillStyle = colours.sheet;
    pen.fill();
    Object.assign(pen, { fillStyle: colours.land, strokeStyle: colours.shore, lineWidth: 0.8 });
    if (isDrawn) paintRings(pen, view, rings, off > MOST_OFF);
    pen.restore();
    if (!isAll) return null;
    return off > MOST_OFF && isDrawn ? ROUGH_COAST : "";
  }
}
/**
 * @param {CanvasRenderingContext2D} pen
 * @param {Projection} view
 * @param {Ring[]} rings
 * @param {boolean} isRough
 */
function paintRings(pen, view, rings, isRough) {
  const traced = rings.map(it => spotsOf(view, it.line));
  if (!isRough) {
    pen.beginPath();
    for (const it of traced) trace(pen, it);
    pen.fill("evenodd");
  } else pen.setLineDash([6, 4]);
  pen.beginPath();
  traced.forEach((spots, n) => stroke(pen, view, spots, rings[n].isSide));
  pen.stroke();
}
/**
 * The pixels of a line.
 * @param {Projection} view
 * @param {Float32Array} line
 */
const spotsOf = (view, line) => Array.from({ length: line.length / 3 }, (_, k) => {
  view.put(line, k);
  return [view.x, view.y];
});
/** @param {CanvasRenderingContext2D} pen @param {number[][]} spots */
function trace(pen, spots) {
  spots.forEach(([x, y], k) => k ? pen.lineTo(x, y) : pen.moveTo(x, y));
  pen.closePath();
}
/**
 * The parts of a ring that are a coast and in view as a path, since a pen gives up dashes on a long
 * one.
 * @param {CanvasRenderingContext2D} pen
 * @param {Projection} view
 * @param {number[][]} spots
 * @param {boolean[]} isSide
 */
function stroke(pen, { width, height }, spots, isSide) {
  spots.forEach(([x, y], k) => {
    const [a, b] = spots.at(k - 1) || [x, y];
    if (isSide[k] || Math.max(a, x) < 0 || Math.min(a, x) > width || Math.max(b, y) < 0 ||
      Math.min(b, y) > height) return;
    pen.moveTo(a, b);
    pen.lineTo(x, y);
  });
}
/** Whether a ring of pixels is around all of the map. */
function isAround(/** @type {Projection} */ { width, height }, /** @type {number[][]} */ ring) {
  return [[0, 0], [width, 0], [0, height], [width, height]].every(([x, y]) => {
    const crossed = ring.filter(([a, n], k) => {
      const [b, m] = ring.at(k - 1) || [a, n];
      return (a <= x) !== (b <= x) && n + (m - n) * (x - a) / (b - a) > y;
    });
    return crossed.length % 2 === 1;
  });
}
/** Whether a part of a line may be in view. */
function isNear(/** @type {Projection} */ { width, height }, /** @type {number[][]} */ spots) {
  const wide = spots.map(it => it[0]), high = spots.map(it => it[1]);
  return Math.max(...wide) >= 0 && Math.min(...wide) <= width && Math.max(...high) >= 0 &&
    Math.min(...high) <= height;
}
