// @ts-check
// Lines and dots on a canvas, by a projection.

/** @typedef {import("../../geo/projection.js").Projection} Projection */
/** @typedef {CanvasRenderingContext2D} Pen */

/**
 * A path of a line's places from one on and before another, broken where `breaks` says so or where
 * it leaves this side of the earth.
 * @param {Pen} pen
 * @param {Projection} view
 * @param {ArrayLike<number>} line
 * @param {{ begin?: number, end?: number, breaks?: (k: number) => boolean }} of
 */
export function trace(pen, view, line,
  { begin = 0, end = line.length / 3, breaks = () => false } = {}) {
  const { width, height } = view;
  let lastX = 0, lastY = 0, drawn = false;
  for (let k = begin; k < end; k++) {
    const near = view.put(line, k), { x, y } = view;
    const whole = drawn && near && !breaks(k);
    // what lies wholly to one side of the map, or within half a pixel, needn't be drawn
    const beside = Math.max(x, lastX) < 0 || Math.min(x, lastX) > width ||
      Math.max(y, lastY) < 0 || Math.min(y, lastY) > height;
    const still = Math.abs(x - lastX) + Math.abs(y - lastY) < 0.5 && k < end - 1;
    if (whole && still) continue;
    if (whole && !beside) pen.lineTo(x, y);
    else pen.moveTo(x, y);
    [lastX, lastY, drawn] = [x, y, near];
  }
}
/**
 * Draws a line.
 * @param {Pen} pen
 * @param {Projection} view
 * @param {ArrayLike<number>} places
 */
export function line(pen, view, places) {
  pen.beginPath();
  trace(pen, view, places);
  pen.stroke();
}
/**
 * Draws a dot.
 * @param {Pen} pen
 * @param {number} x
 * @param {number} y
 * @param {number} radius
 */
export function dot(pen, x, y, radius) {
  pen.beginPath();
  pen.arc(x, y, radius, 0, 7);
  pen.fill();
}
/**
 * Puts the pixel of a place into a view; says whether it is on the map.
 * @param {Projection} view
 * @param {ArrayLike<number>} vector
 */
export function isInView(view, vector) {
  const near = view.put(vector), { x, y, width, height } = view;
  return near && x > -10 && y > -10 && x < width + 10 && y < height + 10;
}
