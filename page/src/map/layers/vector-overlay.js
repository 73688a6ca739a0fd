// @ts-check
// The base maps that a reader brings, of GPX, KML or GeoJSON, as lines and named points.

import { dot, isInView, line } from "./drawing.js";

/** @typedef {import("../../formats/read-vector.js").Base} Base */

/** Maps of lines and points below the marks. */
export class VectorOverlays {
  constructor() {
    /** @type {Base[]} */
    this.all = [];
  }
  /** All their places. */
  places() {
    return this.all.flatMap(it => [...it.lines,
      ...it.points.map(point => Float64Array.from(point.vector))]);
  }
  /**
   * @param {import("./layer.js").Context} context
   * @param {import("../../geo/projection.js").Projection} view
   */
  paint(context, view) {
    for (const it of this.all) paintBase(it, context, view);
  }
}
/**
 * @param {Base} base
 * @param {import("./layer.js").Context} context
 * @param {import("../../geo/projection.js").Projection} view
 */
function paintBase(base, { pen, colours, writer }, view) {
  Object.assign(pen, { strokeStyle: colours.soft, lineWidth: 4, globalAlpha: 0.35 });
  for (const it of base.lines) line(pen, view, it);
  pen.globalAlpha = 1;
  for (const { vector, name } of base.points) {
    if (!isInView(view, vector)) continue;
    const { x, y } = view;
    pen.fillStyle = colours.soft;
    dot(pen, x, y, 3);
    writer.write(name.slice(0, 40), x + 5, y + 14, colours.soft, 11);
  }
}
