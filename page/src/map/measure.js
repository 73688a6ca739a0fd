// @ts-check
// A line that the reader measures: the shortest ways over the earth between the places that are
// clicked on.

import { bearing, distance, RADIUS } from "../geo/sphere.js";
import { far } from "../geo/units.js";
import { dot, isInView, line } from "./layers/drawing.js";

/** Between two places of a way that is drawn lie so many metres at most. */
const STEP = 50000;

/**
 * The shortest way from one place to another, as a line of places.
 * @param {number[]} from
 * @param {number[]} to
 */
export function wayOf(from, to) {
  const angle = distance(from, to) / RADIUS, steps = Math.max(1, Math.ceil(angle * RADIUS / STEP));
  // between opposite places any way is the shortest
  if (Math.sin(angle) < 1e-9) return [...from, ...to];
  return Array.from({ length: steps + 1 }, (_, k) => {
    const [a, b] = [1 - k / steps, k / steps].map(it => Math.sin(it * angle) / Math.sin(angle));
    return from.map((it, n) => a * it + b * to[n]);
  }).flat();
}

export class Measure {
  constructor() {
    this.isOn = false;
    /** @type {number[][]} */
    this.places = [];
  }
  /** @param {boolean} on */
  turn(on) {
    this.isOn = on;
    this.places = [];
  }
  /**
   * Goes on to a place.
   * @param {number[]} vector
   */
  add(vector) {
    this.places.push(vector);
  }
  /** Takes the last place back. */
  back() {
    this.places.pop();
  }
  /** The ways between the places. */
  get ways() {
    return this.places.slice(1).map((to, k) => wayOf(this.places[k], to));
  }
  get metres() {
    return this.places.slice(1).reduce((sum, to, k) => sum + distance(this.places[k], to), 0);
  }
  /**
   * What is measured, in words: the last way and its course as it begins, and all of them.
   * @param {{ miles: boolean }} settings
   */
  text(settings) {
    const { places } = this, [from, to] = places.slice(-2);
    if (!this.isOn) return "";
    if (!to) return from ? "measure: click where it ends" : "measure: click where it begins";
    const course = `${Math.round(bearing(from, to)) % 360}\u00b0`.padStart(4, "0");
    const all = places.length > 2 ? `, all ${far(this.metres, settings)}` : "";
    return `${far(distance(from, to), settings)} at ${course}${all}`;
  }
}

/** What is measured, as a layer of the map. */
export class MeasureLayer {
  /** @param {() => void} onChange */
  constructor(onChange) {
    this.way = new Measure();
    this.onChange = onChange;
  }
  get isOn() {
    return this.way.isOn;
  }
  /** @param {boolean} isOn */
  turn(isOn) {
    this.way.turn(isOn);
    this.onChange();
  }
  /** Takes the last place back. */
  back() {
    this.way.back();
    this.onChange();
  }
  /** @param {number} x @param {number} y @param {import("./layers/layer.js").Surface} map */
  tap(x, y, map) {
    if (!this.isOn) return false;
    this.way.add(map.view.at(x, y));
    this.onChange();
    return true;
  }
  /**
   * @param {import("./layers/layer.js").Context} context
   * @param {import("../geo/projection.js").Projection} view
   */
  paint({ pen, colours }, view) {
    const { places, ways } = this.way;
    Object.assign(pen, { strokeStyle: colours.bad, fillStyle: colours.bad, lineWidth: 2 });
    for (const it of ways) line(pen, view, it);
    for (const it of places) if (isInView(view, it)) dot(pen, view.x, view.y, 3.5);
  }
}
