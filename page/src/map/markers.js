// @ts-check
// The marks of the map: one for each thing, with its symbol, its way, and a ring of who is in need.

import { RADIAN, RADIUS } from "../geo/sphere.js";
import { byColour } from "./mark.js";
import { pathOf, symbolOf } from "./symbols.js";
import { motionOf, OPEN } from "../net/details.js";

/** @typedef {import("../net/rows.js").Place} Place */
/** @typedef {import("./mark.js").Mark} Mark */

/** How far the ring reaches that is around who is in need, in pixels. */
export const RING = 17;

/** Draws marks. */
export class MarkPainter {
  /**
   * @param {CanvasRenderingContext2D} pen
   * @param {import("../geo/projection.js").Projection} view
   * @param {Record<string, string>} colours
   * @param {import("./layers/halo-text.js").Writer} writer
   */
  constructor(pen, view, colours, writer) {
    this.pen = pen;
    this.view = view;
    this.colours = colours;
    this.writer = writer;
  }
  /**
   * Marks where there are many: dots, those of one colour at once.
   * @param {Mark[]} marks
   */
  paintDots(marks) {
    const { pen } = this;
    for (const [colour, list] of byColour(marks)) {
      pen.fillStyle = colour;
      // whole pixels are quicker
      for (const { x, y } of list) pen.fillRect(Math.round(x) - 3, Math.round(y) - 3, 6, 6);
    }
  }
  /** @param {Mark} mark */
  paint({ thing, place, picked, colour, x, y }) {
    const { pen, colours } = this, killed = place.state === "killed", motion = motionOf(place);
    if (thing.urgent && !killed)
      this.ring(x, y, RING - 1, { strokeStyle: colours.bad, lineWidth: 3 });
    if (OPEN[place.ambiguity]) this.openRing(x, y, place, colour);
    pen.fillStyle = colour;
    if (motion?.course !== undefined && !killed) this.arrow(x, y, motion.course);
    pen.strokeStyle = picked ? colours.ink : colours.paper;
    pen.lineWidth = picked ? 2.5 : 1.5;
    this.shape(thing.kind, x, y);
    pen.fill();
    pen.stroke();
    const symbol = symbolOf(place);
    pen.save();
    pen.translate(x - 6.6, y - 6.6);
    pen.scale(0.55, 0.55);
    pen.fillStyle = colours.paper;
    pen.fill(pathOf(killed ? "x" : symbol.shape), "evenodd");
    pen.restore();
    if (symbol.overlay) this.writer.write(symbol.overlay, x + 4, y - 5, colours.ink, 10, true);
  }
  /**
   * The outline of a mark, which says what kind of thing it is.
   * @param {string} kind
   * @param {number} x
   * @param {number} y
   */
  shape(kind, x, y) {
    const { pen } = this;
    pen.beginPath();
    if (kind === "station") pen.arc(x, y, 9.5, 0, 7);
    else if (kind === "object") pen.rect(x - 9, y - 9, 18, 18);
    else {
      pen.arc(x, y, 9.5, Math.PI, 0);
      pen.lineTo(x + 9.5, y + 9);
      pen.lineTo(x - 9.5, y + 9);
      pen.closePath();
    }
  }
  /**
   * @param {number} x
   * @param {number} y
   * @param {number} radius
   * @param {{ strokeStyle: string, lineWidth: number }} line
   */
  ring(x, y, radius, line) {
    const { pen } = this;
    Object.assign(pen, line);
    pen.beginPath();
    pen.arc(x, y, radius, 0, 7);
    pen.stroke();
  }
  /**
   * A ring around where something may be whose sender left digits out.
   * @param {number} x
   * @param {number} y
   * @param {Place} place
   * @param {string} colour
   */
  openRing(x, y, { ambiguity }, colour) {
    const radius = Math.max(13, OPEN[ambiguity] / RADIUS * this.view.scale);
    this.pen.setLineDash([3, 3]);
    this.ring(x, y, radius, { strokeStyle: colour, lineWidth: 1 });
    this.pen.setLineDash([]);
  }
  /**
   * The way that something goes, as a beak on its mark.
   * @param {number} x
   * @param {number} y
   * @param {number} course
   */
  arrow(x, y, course) {
    const { pen } = this;
    pen.save();
    pen.translate(x, y);
    pen.rotate(course * RADIAN);
    pen.beginPath();
    pen.moveTo(-6, -8);
    pen.lineTo(0, -18);
    pen.lineTo(6, -8);
    pen.fill();
    pen.restore();
  }
}
