// @ts-check
// The coast of the world, and above it a fine one within a box, where the page has it.

import { Land } from "./coastline.js";
import { Shore } from "./fine-coastline.js";

/** @typedef {import("./layer.js").Context} Context */
export class CoastLayer {
  constructor() {
    this.land = new Land();
    this.shore = new Shore();
  }
  /** @param {Context} context @param {import("../../geo/projection.js").Projection} view */
  paint({ pen, colours }, view) {
    const rough = this.land.paint(pen, view, colours, this.shore.of !== null);
    return this.shore.paint(pen, view, colours) ?? rough;
  }
}
