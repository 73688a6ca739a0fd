// @ts-check
// The map: a canvas, its layers, and from where one looks at it. All in view is painted once for
// each picture.

import { TRACKS } from "./colours.js";
import { listenToMap } from "./gestures.js";
import { Writer } from "./layers/halo-text.js";
import { NEAREST, Projection } from "../geo/projection.js";
import { capOf, degreesOf, RADIUS } from "../geo/sphere.js";
import { oncePerFrame } from "../util/dom.js";

/** The colours of the style that the map takes. */
const COLOURS = ["paper", "sheet", "ink", "soft", "line", "warn", "bad", "land", "shore", "station",
  "object", "item", ...Array.from({ length: TRACKS }, (_, k) => `t${k}`),
  "a0", "a1", "a2", "a3", "a4"];

/** @typedef {import("./layers/layer.js").Layer} Layer */
/** @typedef {import("../net/settings.js").Settings} Settings */
/**
 * Who hears of what: `onView` of a move, `onFill` whether the map fills the window, `onFit` that it
 * shows all that is near, `onSpot` of the place below the pointer, `onColours` of other colours.
 * `keys` are those of the layers.
 * @typedef {{ onView: (text: string) => void, onFill: (full: boolean) => void, onFit: () => void,
 *   onSpot: (vector: number[] | null) => void, onColours: () => void, settings: () => Settings,
 *   keys: Record<string, () => void> }} Hears
 */

export class NetMap {
  /**
   * @param {HTMLElement} node holds a canvas
   * @param {Layer[]} layers the lowest one first
   * @param {Hears} hears
   */
  constructor(node, layers, hears) {
    this.node = node;
    this.layers = layers;
    this.hears = hears;
    this.keys = hears.keys;
    this.view = new Projection();
    this.fitted = true;
    /** Whether what is far away is fitted too. */
    this.isAll = false;
    this.measured = false;
    this.isFull = false;
    this.far = 0;
    /** @type {Record<string, string>} */
    this.colours = {};
    this.canvas = /** @type {HTMLCanvasElement} */ (node.querySelector("canvas"));
    this.pen = /** @type {CanvasRenderingContext2D} */ (this.canvas.getContext("2d"));
    this.writer = new Writer(this.pen, this.colours);
    this.paintSoon = oncePerFrame(() => this.paint());
    this.readColours();
    matchMedia("(prefers-color-scheme: dark)").addEventListener("change", () => {
      this.readColours();
      this.paintSoon();
    });
    new ResizeObserver(() => this.measure()).observe(node);
    listenToMap(this);
  }
  /** Paints the map, once it has a size. */
  paint() {
    const { pen, view, colours, writer } = this;
    if (!this.measured) return;
    pen.clearRect(0, 0, view.width, view.height);
    pen.fillStyle = colours.sheet;
    pen.fillRect(0, 0, view.width, view.height);
    pen.lineJoin = "round";
    const context = { pen, colours, writer, settings: this.hears.settings(),
      again: this.paintSoon, note: "" };
    for (const it of this.layers) context.note = it.paint(context, view) ?? context.note;
  }
  /**
   * Fills the window, or leaves it.
   * @param {boolean} full
   */
  fill(full) {
    this.isFull = full;
    this.hears.onFill(full);
    this.measure();
  }
  /** Says that one finger doesn't move the map. */
  hint() {
    const { node } = this;
    node.classList.add("hint");
    setTimeout(() => node.classList.remove("hint"), 1500);
  }
  readColours() {
    const style = getComputedStyle(document.documentElement);
    for (const name of COLOURS) this.colours[name] = style.getPropertyValue("--" + name).trim();
    this.hears.onColours();
  }
  measure() {
    const { width, height } = this.node.getBoundingClientRect();
    if (!width || !height) return;
    const isFirst = !this.measured;
    this.measured = true;
    const ratio = devicePixelRatio || 1;
    this.canvas.width = Math.round(width * ratio);
    this.canvas.height = Math.round(height * ratio);
    this.pen.setTransform(ratio, 0, 0, ratio, 0, 0);
    Object.assign(this.view, { width, height });
    if (this.fitted) this.fit(this.isAll);
    // at first there is much else to do before the next picture
    if (isFirst) this.paintSoon();
    else this.paint();
  }
  /** Fits what layers have, where the reader didn't move the map. */
  refit() {
    if (this.fitted && this.measured) this.fit(this.isAll);
  }
  /** Looks at what is near most; what is far away from it, in `far`, only where it is asked for. */
  fit(isAll = false) {
    Object.assign(this, { fitted: true, isAll });
    const of = (/** @type {boolean} */ leads) => this.layers
      .flatMap(it => Boolean(it.leads) === leads && it.places?.() || []);
    const leading = of(true), isIn = isAll ? () => true : capOf(leading);
    this.view.fit([...leading, ...of(false)], leading.length ? isIn : () => true);
    this.far = leading.reduce((sum, it) => {
      for (let k = 0; 3 * k < it.length; k++) if (!isIn(it, k)) sum++;
      return sum;
    }, 0);
    this.hears.onFit();
  }
  /** @param {number} right @param {number} down pixels */
  move(right, down) {
    this.fitted = false;
    this.view.move(right, down);
  }
  /**
   * Zooms around a pixel, or around the middle.
   * @param {number} by
   * @param {[number, number] | []} at
   */
  zoom(by, ...at) {
    this.fitted = false;
    this.view.zoom(by, ...at);
  }
  /** Paints what the reader asked for, and says so. */
  turn() {
    this.paintSoon();
    this.hears.onView(this.fitted ? "" : [...this.view.middle.map(it => it.toFixed(5)),
      (this.view.scale / RADIUS * 1000).toPrecision(5)].join());
  }
  /**
   * Takes the view of `turn`: degrees, and pixels for a kilometre.
   * @param {string} text
   */
  look(text) {
    const [north, east, scale] = text.split(",").map(Number);
    if (![north, east, scale].every(Number.isFinite) || !(scale > 0)) return;
    this.fitted = false;
    this.view.look(north, east);
    this.view.scale = Math.min(NEAREST, Math.max(60, scale * RADIUS / 1000));
  }
  /**
   * Brings a place into view where it isn't.
   * @param {ArrayLike<number>} vector
   */
  reach(vector) {
    const near = this.view.put(vector), { x, y, width, height } = this.view;
    if (near && x > 20 && y > 20 && x < width - 20 && y < height - 20) return;
    this.fitted = false;
    this.view.look(...degreesOf(vector));
    this.turn();
  }
  /**
   * Tells of the place below a pixel, where it is on the earth.
   * @param {[number, number] | null} at
   */
  point(at) {
    const { width, height, scale } = this.view;
    const isOn = at && Math.hypot(at[0] - width / 2, at[1] - height / 2) < 2 * scale;
    this.hears.onSpot(isOn ? this.view.at(...at) : null);
  }
  /**
   * What layers say of a pixel, the highest one first.
   * @param {number} x
   * @param {number} y
   */
  tip(x, y) {
    for (const it of [...this.layers].reverse()) {
      const nodes = it.tip?.(x, y, this.hears.settings());
      if (nodes?.length) return nodes;
    }
    return [];
  }
  /**
   * Gives a tap to the highest layer that takes it.
   * @param {number} x
   * @param {number} y
   */
  tap(x, y) {
    [...this.layers].reverse().find(it => it.tap?.(x, y, this));
  }
  /** @param {number} x @param {number} y */
  closer(x, y) {
    this.zoom(2, x, y);
    this.turn();
  }
}
