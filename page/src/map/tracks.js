// @ts-check
// Tracks on the map: which way they go, when, and how long ago.

import { trace } from "./layers/drawing.js";
import { byColour } from "./mark.js";
import { hourText } from "../util/time.js";

/** @typedef {import("../geo/projection.js").Projection} Projection */
/** @typedef {import("../net/things.js").Thing} Thing */
/** @typedef {import("./mark.js").Mark} Mark */
/** @typedef {CanvasRenderingContext2D} Pen */

/** Of more places than these, tracks are thin, and neither fade nor say their way. */
export const MANY = 8000;
/** How much is seen of each quarter of the time, the oldest first. */
const FADES = [0.35, 0.55, 0.75, 0.95];
/** So many pixels lie between two arrows of a track, and between two of its times. */
const ARROW_EACH = 90, TIME_EACH = 70;

/** A kill ends a segment of a thing's track. */
const breaksOf = (/** @type {Thing} */ { rows: { killed }, placedBy }) =>
  (/** @type {number} */ k) => killed[placedBy[k - 1]] === 1;

/**
 * In which quarter of the time a moment lies.
 * @param {number} moment
 * @param {{ begin: number, end: number }} time
 */
export const quarterOf = (moment, { begin, end }) =>
  Math.max(0, Math.min(3, Math.floor(4 * (moment - begin) / Math.max(1, end - begin))));

/** The tracks of a picture. */
export class Tracks {
  /**
   * @param {Pen} pen
   * @param {Projection} view
   * @param {{ until: number, isAnyPicked: boolean }} of
   */
  constructor(pen, view, { until, isAnyPicked }) {
    this.pen = pen;
    this.view = view;
    this.until = until;
    this.dim = isAnyPicked ? 0.3 : 1;
  }
  /**
   * Paints the tracks of these marks, that of what is picked last.
   * @param {Mark[]} marks
   */
  paint(marks) {
    const { pen } = this, moved = marks.filter(({ thing }) => thing.placedBy.length > 1);
    const places = moved.reduce((sum, { thing }) => sum + thing.placedBy.length, 0);
    const others = moved.filter(it => !it.picked), picked = moved.filter(it => it.picked);
    pen.lineJoin = "bevel";
    if (places > MANY) this.paintMany(others);
    else this.paintFading(others, 2, this.dim, timeOf(moved, this.until));
    this.paintFading(picked, 4, 1, timeOf(picked, this.until));
    pen.globalAlpha = 1;
    pen.lineJoin = "round";
  }
  /**
   * Thin ones, which take much less time; many short paths are quicker than a long one.
   * @param {Mark[]} marks
   */
  paintMany(marks) {
    const { pen } = this;
    Object.assign(pen, { lineWidth: 1, globalAlpha: 0.4 * this.dim });
    for (const [colour, list] of byColour(marks)) {
      pen.strokeStyle = colour;
      pen.beginPath();
      let places = 0;
      for (const { thing } of list) {
        this.trace(thing, 0, thing.countAt(this.until));
        places += thing.placedBy.length;
        if (places < 50) continue;
        pen.stroke();
        pen.beginPath();
        places = 0;
      }
      pen.stroke();
    }
  }
  /** @param {Thing} thing @param {number} begin @param {number} end */
  trace(thing, begin, end) {
    trace(this.pen, this.view, thing.track, { begin, end, breaks: breaksOf(thing) });
  }
  /**
   * Each quarter of the time by itself, with arrows.
   * @param {Mark[]} marks
   * @param {number} width
   * @param {number} most how much is seen of the newest
   * @param {{ begin: number, end: number }} time
   */
  paintFading(marks, width, most, time) {
    const { pen } = this;
    pen.lineWidth = width;
    for (const [colour, list] of byColour(marks)) {
      const parts = list.map(({ thing }) =>
        ({ thing, begins: quartersOf(thing, this.until, time) }));
      Object.assign(pen, { strokeStyle: colour, fillStyle: colour });
      FADES.forEach((fade, quarter) => {
        pen.globalAlpha = fade * most;
        pen.beginPath();
        for (const { thing, begins } of parts)
          if (begins[quarter + 1] > begins[quarter])
            this.trace(thing, Math.max(0, begins[quarter] - 1), begins[quarter + 1]);
        pen.stroke();
      });
      pen.globalAlpha = 0.9 * most;
      for (const { thing } of list) this.paintArrows(thing, width + 2.5);
    }
  }
  /**
   * The places of a track at which a step of so many pixels ends, and where it came from.
   * @param {Thing} thing
   * @param {number} each
   * @param {(k: number, from: { x: number, y: number }, to: { x: number, y: number }) => void} run
   */
  along(thing, each, run) {
    const { view } = this, breaks = breaksOf(thing), count = thing.countAt(this.until);
    let way = each / 2, last = { x: 0, y: 0 }, drawn = false;
    for (let k = 0; k < count; k++) {
      const near = view.put(thing.track, k), now = { x: view.x, y: view.y };
      if (drawn && near && !breaks(k)) {
        way += Math.hypot(now.x - last.x, now.y - last.y);
        if (way >= each && this.isIn(now)) {
          run(k, last, now);
          way = 0;
        }
      }
      // a step so short says no direction
      if (!drawn || !near || Math.hypot(now.x - last.x, now.y - last.y) > 4) last = now;
      drawn = near;
    }
  }
  /** @param {{ x: number, y: number }} spot */
  isIn({ x, y }) {
    return x > 0 && y > 0 && x < this.view.width && y < this.view.height;
  }
  /** @param {Thing} thing @param {number} size */
  paintArrows(thing, size) {
    const { pen } = this;
    this.along(thing, ARROW_EACH, (_, from, to) => {
      const long = Math.hypot(to.x - from.x, to.y - from.y);
      if (long < 4) return;
      const right = (to.x - from.x) / long, down = (to.y - from.y) / long;
      const x = (from.x + to.x) / 2, y = (from.y + to.y) / 2;
      pen.beginPath();
      pen.moveTo(x + size * right, y + size * down);
      pen.lineTo(x - size * (right + down), y - size * (down - right));
      pen.lineTo(x - size * (right - down), y - size * (down + right));
      pen.fill();
    });
  }
  /**
   * The times of a track, each where `write` finds room for it.
   * @param {Thing} thing
   * @param {import("../util/time.js").Clock} settings
   * @param {(text: string, x: number, y: number) => void} write
   */
  writeTimes(thing, settings, write) {
    this.along(thing, TIME_EACH, (k, _, { x, y }) =>
      write(hourText(thing.rows.first[thing.placedBy[k]], settings), x, y));
  }
}
/**
 * The numbers of the places with which the quarters of a track begin, and how many there are.
 * @param {Thing} thing
 * @param {number} until
 * @param {{ begin: number, end: number }} time
 */
function quartersOf(thing, until, time) {
  const { rows, placedBy } = thing, count = thing.countAt(until);
  const from = (/** @type {number} */ quarter) => {
    const at = placedBy.findIndex(k => quarterOf(rows.first[k], time) >= quarter);
    return at < 0 ? count : Math.min(at, count);
  };
  return [...FADES.map((_, quarter) => from(quarter)), count];
}
/**
 * The time of these tracks.
 * @param {Mark[]} marks
 * @param {number} until
 */
function timeOf(marks, until) {
  const time = { begin: Infinity, end: -Infinity };
  for (const { thing: { rows, placedBy } } of marks) {
    time.begin = Math.min(time.begin, rows.first[placedBy[0]]);
    time.end = Math.max(time.end, Math.min(until, rows.first[placedBy[placedBy.length - 1]]));
  }
  return time;
}
