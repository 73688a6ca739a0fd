// @ts-check
// The scale of the map, and above it what is said of how exact the ground is.

import { RADIUS } from "../geo/sphere.js";
import { scaleOf } from "../geo/units.js";

/** @type {import("./layers/layer.js").Layer} */
export const scaleBar = {
  paint({ pen, colours, writer, settings, note }, view) {
    const { metres, text } = scaleOf(70 / view.scale * RADIUS, settings);
    const long = metres / RADIUS * view.scale, x = view.width - 12, y = view.height - 22;
    writer.write(text, x - writer.widthOf(text), y - 5, colours.ink, 12);
    if (note) writer.write(note, x - writer.widthOf(note), y - 22, colours.soft, 11);
    Object.assign(pen, { strokeStyle: colours.ink, lineWidth: 1.5 });
    pen.beginPath();
    pen.moveTo(x - long, y);
    pen.lineTo(x - long, y + 6);
    pen.lineTo(x, y + 6);
    pen.lineTo(x, y);
    pen.stroke();
  },
};
