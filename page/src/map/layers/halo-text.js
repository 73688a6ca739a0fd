// @ts-check
// Texts on the map: with a rim of the sheet's colour, so that one reads them on anything.

const FONT = (/** @type {number} */ size, isBold = false) =>
  `${isBold ? "600 " : ""}${size}px system-ui, sans-serif`;

export class Writer {
  /**
   * @param {CanvasRenderingContext2D} pen
   * @param {Record<string, string>} colours
   */
  constructor(pen, colours) {
    this.pen = pen;
    this.colours = colours;
    /** @type {Map<string, number>} */
    this.widths = new Map();
  }
  /**
   * How wide a name is.
   * @param {string} text
   */
  widthOf(text, isBold = false) {
    const key = isBold ? `bold ${text}` : text;
    let width = this.widths.get(key);
    if (width === undefined) {
      this.pen.font = FONT(12, isBold);
      this.widths.set(key, width = this.pen.measureText(text).width);
    }
    return width;
  }
  /**
   * @param {string} text
   * @param {number} x
   * @param {number} y
   * @param {string} colour
   * @param {number} size
   */
  write(text, x, y, colour, size, isBold = false) {
    const { pen } = this;
    pen.font = FONT(size, isBold);
    Object.assign(pen, { lineWidth: 3, strokeStyle: this.colours.sheet, fillStyle: colour });
    pen.strokeText(text, x, y);
    pen.fillText(text, x, y);
  }
  /**
   * Writes a name on a patch of the sheet, which is quicker than with a rim.
   * @param {string} text
   * @param {number} x
   * @param {number} y
   * @param {string} colour
   */
  writeOnSheet(text, x, y, colour) {
    const { pen } = this;
    pen.globalAlpha = 0.8;
    pen.fillStyle = this.colours.sheet;
    pen.fillRect(Math.round(x) - 1, Math.round(y) - 10, Math.ceil(this.widthOf(text) + 2), 13);
    pen.globalAlpha = 1;
    pen.font = FONT(12);
    pen.fillStyle = colour;
    pen.fillText(text, x, y);
  }
  /**
   * Writes how many marks lie in one place, beside the top one.
   * @param {number} n
   * @param {{ x: number, y: number }} spot
   */
  writeCount(n, { x, y }) {
    const { pen, colours } = this, text = String(n), width = Math.max(14, this.widthOf(text) + 6);
    pen.fillStyle = colours.ink;
    pen.beginPath();
    pen.arc(x + 2 + width / 2, y - 10, width / 2, 0, 7);
    pen.fill();
    pen.font = FONT(10, true);
    pen.fillStyle = colours.paper;
    pen.fillText(text, x + 2 + width / 2 - pen.measureText(text).width / 2, y - 6.5);
  }
}
