// @ts-check
// Parallels and meridians, and their names at the edge of the map.

import { degreesOf, RADIAN, vectorOf } from "../../geo/sphere.js";
import { roundUp } from "../../util/numbers.js";

/** @typedef {import("../../geo/projection.js").Projection} Projection */
/** @typedef {{ text: string, x: number, y: number }} Label a name, and the pixel where it begins */

/**
 * The parallels and meridians between which the map lies, in degrees; `wide` if all around.
 * @param {Projection} view
 */
export function rangeOf(view) {
  const { width, height, scale } = view, edge = [], mid = view.middle[1];
  // beyond the rim of the earth's picture there is nothing, and within it all
  if (Math.hypot(width, height) / 2 > 1.95 * scale)
    return { low: -90, high: 90, west: mid - 180, east: mid + 180, wide: true };
  for (let k = 0; k <= 24; k++)
    for (const [x, y] of [[k / 24 * width, 0], [k / 24 * width, height], [0, k / 24 * height],
      [width, k / 24 * height]]) edge.push(degreesOf(view.at(x, y)));
  const pole = [90, -90].find(north => {
    const near = view.put(vectorOf(north, 0));
    return near && view.x >= 0 && view.y >= 0 && view.x <= width && view.y <= height;
  });
  const turned = edge.map(([, east]) => (east - mid + 540) % 360 - 180);
  const norths = [...edge.map(it => it[0]), ...(pole === undefined ? [] : [pole])];
  const low = Math.min(...norths), high = Math.max(...norths);
  const wide = pole !== undefined || Math.max(...turned) - Math.min(...turned) > 300;
  const [west, east] = wide ? [-180, 180] : [Math.min(...turned), Math.max(...turned)];
  return { low, high, west: mid + west, east: mid + east, wide };
}
/**
 * Draws parallels and meridians, and returns their names for the edge of the map.
 * @param {CanvasRenderingContext2D} pen
 * @param {Projection} view
 * @param {Record<string, string>} colours
 */
function paintGrid(pen, view, colours) {
  const { width, height, scale } = view, { low, high, west, east, wide } = rangeOf(view);
  const labels = [];
  Object.assign(pen, { strokeStyle: colours.line, lineWidth: 1 });
  const stepNorth = Math.min(30, roundUp(70 / scale / RADIAN));
  for (const north of steps(low, high, stepNorth)) {
    if (Math.abs(north) > 90) continue;
    const label = gridLine(pen, view, t => [north, west + (east - west) * t], "x", 4);
    if (label && label.y > 15)
      labels.push({ text: degreeText(north, stepNorth, "NS"), x: 4, y: label.y - 3 });
  }
  const level = Math.max(0.02, Math.cos(Math.min(89, Math.abs(view.middle[0])) * RADIAN));
  const stepEast = wide ? 30 : Math.min(30, roundUp(90 / scale / RADIAN / level));
  for (const at of steps(west, east, stepEast)) {
    const turnedEast = (at + 540) % 360 - 180;
    const label = gridLine(pen, view, t => [low + (high - low) * t, at], "y", height - 4);
    if (label && label.x > 40 && label.x < width - 50)
      labels.push({ text: degreeText(turnedEast, stepEast, "EW"), x: label.x + 3, y: height - 5 });
  }
  return apart(labels);
}
/**
 * Names that don't run over one another: of two that would, the first.
 * @param {Label[]} labels
 */
function apart(labels) {
  /** @type {Label[]} */
  const kept = [];
  for (const it of labels)
    if (kept.every(one => Math.abs(one.x - it.x) > 44 || Math.abs(one.y - it.y) > 12))
      kept.push(it);
  return kept;
}
/** @param {number} from @param {number} to @param {number} by */
function steps(from, to, by) {
  const first = Math.ceil(from / by), last = Math.floor(to / by);
  return Array.from({ length: Math.max(0, Math.min(200, last - first + 1)) },
    (_, k) => (first + k) * by);
}
/** @param {number} at @param {number} by @param {string} marks */
function degreeText(at, by, marks) {
  const digits = Math.max(0, -Math.floor(Math.log10(by) + 1e-9));
  const text = Math.abs(at).toFixed(digits);
  const mark = +text === 0 || marks === "EW" && +text === 180 ? "" : marks[at < 0 ? 1 : 0];
  return `${text}\u00b0${mark}`;
}
/**
 * Draws the curve of `place` from 0 to 1, and says where it crosses x or y = `edge`.
 * @param {CanvasRenderingContext2D} pen
 * @param {Projection} view
 * @param {(t: number) => [number, number]} place north and east
 * @param {"x" | "y"} axis
 * @param {number} edge
 */
function gridLine(pen, view, place, axis, edge) {
  /** @type {{ x: number, y: number } | null} */
  let last = null;
  /** @type {{ x: number, y: number } | null} */
  let crossing = null;
  pen.beginPath();
  for (let k = 0; k <= 48; k++) {
    const near = view.put(vectorOf(...place(k / 48))), now = { x: view.x, y: view.y };
    if (near && last) {
      pen.lineTo(now.x, now.y);
      if ((last[axis] - edge) * (now[axis] - edge) <= 0 && last[axis] !== now[axis]) {
        const share = (edge - last[axis]) / (now[axis] - last[axis]);
        const at = { x: last.x + share * (now.x - last.x), y: last.y + share * (now.y - last.y) };
        if (at.x >= 0 && at.x <= view.width && at.y >= 0 && at.y <= view.height) crossing = at;
      }
    } else pen.moveTo(now.x, now.y);
    last = near ? now : null;
  }
  pen.stroke();
  return crossing;
}

/** The graticule; its names are a layer of their own, above all else. */
export class Graticule {
  constructor() {
    /** @type {Label[]} */
    this.labels = [];
    /** @type {import("./layer.js").Layer} */
    this.names = { paint: ({ writer, colours }) => {
      for (const { text, x, y } of this.labels) writer.write(text, x, y, colours.soft, 11);
    } };
  }
  /** @param {import("./layer.js").Context} context @param {Projection} view */
  paint({ pen, colours }, view) {
    this.labels = paintGrid(pen, view, colours);
  }
}
