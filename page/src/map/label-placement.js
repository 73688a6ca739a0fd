// @ts-check
// Where the names of marks stand: beside them, where there is room, and where they stood before.

/**
 * Where a name may stand: its left edge is so many reaches of the mark, widths of the name and
 * pixels to the right, and its base so many reaches and pixels down.
 */
const SIDES = [[1, 0, 0, 0, 4], [-1, -1, 0, 0, 4], [0, -0.5, 0, -1, -4], [0, -0.5, 0, 1, 12],
  [1, 0, -2, 1, 12], [-1, -1, 2, 1, 12], [1, 0, -2, -1, -4], [-1, -1, 2, -1, -4]];
/** Longer names have no room beside others; of the name before a call so much is shown. */
const LONG = 26, SHORT = 12;
/**
 * A name as it stands on the map: of a long one its beginning, and its call.
 * @param {string} label such as `Leader (Q1RUN-7)`
 */
export function nameOnMap(label) {
  const [, name, call] = /^(.*) (\(\S+\))$/s.exec(label) || ["", label, ""];
  if (label.length <= LONG) return label;
  const begin = Array.from(name).slice(0, call ? SHORT : LONG - 1).join("").trimEnd();
  return `${begin}\u2026 ${call}`.trimEnd();
}
/** The side of a square of room, in pixels. */
const SQUARE = 4;

/** Which parts of the map have a mark or a name, in squares that move with the map. */
export class Room {
  /**
   * @param {number} width
   * @param {number} height
   * @param {{ x: number, y: number }} [anchor] a place of the map
   */
  constructor(width, height, anchor = { x: 0, y: 0 }) {
    this.offX = ((anchor.x % SQUARE) + SQUARE) % SQUARE - SQUARE;
    this.offY = ((anchor.y % SQUARE) + SQUARE) % SQUARE - SQUARE;
    this.across = Math.ceil(width / SQUARE) + 2;
    this.down = Math.ceil(height / SQUARE) + 2;
    this.squares = new Uint8Array(this.across * this.down);
  }
  /**
   * The squares of a box, those beside the map left out.
   * @param {number} left
   * @param {number} top
   * @param {number} right
   * @param {number} bottom
   */
  span(left, top, right, bottom) {
    const across = (/** @type {number} */ x) => Math.floor((x - this.offX) / SQUARE);
    const down = (/** @type {number} */ y) => Math.floor((y - this.offY) / SQUARE);
    return { x0: Math.max(0, across(left)), x1: Math.min(this.across - 1, across(right)),
      y0: Math.max(0, down(top)), y1: Math.min(this.down - 1, down(bottom)) };
  }
  /**
   * @param {number} left
   * @param {number} top
   * @param {number} right
   * @param {number} bottom
   */
  isFree(left, top, right, bottom) {
    const { x0, x1, y0, y1 } = this.span(left, top, right, bottom);
    for (let y = y0; y <= y1; y++)
      for (let at = y * this.across + x0, end = y * this.across + x1; at <= end; at++)
        if (this.squares[at]) return false;
    return true;
  }
  /**
   * @param {number} left
   * @param {number} top
   * @param {number} right
   * @param {number} bottom
   */
  take(left, top, right, bottom) {
    const { x0, x1, y0, y1 } = this.span(left, top, right, bottom);
    for (let y = y0; y <= y1; y++)
      if (x0 <= x1) this.squares.fill(1, y * this.across + x0, y * this.across + x1 + 1);
  }
}

/** The sides on which names stood, by the keys of things. */
export class Sides {
  /**
   * @param {number} width
   * @param {number} height
   */
  constructor(width, height) {
    this.width = width;
    this.height = height;
    /** @type {Map<string, number>} */
    this.by = new Map();
  }
  /**
   * The left edge and the base of a name, where there is room for it: where it stood before, even
   * half beside the map, or else on the first side that is free and on the map. `isWanted` puts it
   * where it may hide others.
   * @param {string} key
   * @param {{ x: number, y: number }} mark
   * @param {{ width: number, reach: number, isWanted: boolean }} name
   * @param {Room} room
   */
  place(key, mark, { width, reach, isWanted }, room) {
    const by = reach + 4, spots = SIDES.map(([a, b, c, d, e]) =>
      ({ left: mark.x + a * by + b * width + c, base: mark.y + d * by + e }));
    const isFree = (/** @type {number} */ n) => {
      const { left, base } = spots[n];
      return room.isFree(left, base - 11, left + width, base + 3);
    };
    const isOnMap = (/** @type {number} */ n) => {
      const { left, base } = spots[n];
      return left >= 0 && base >= 11 && left + width <= this.width && base + 3 <= this.height;
    };
    const before = this.by.get(key);
    let side = before !== undefined && isFree(before) ? before
      : spots.findIndex((_, n) => isOnMap(n) && isFree(n));
    if (side < 0 && !isWanted) return null;
    side = Math.max(0, side);
    this.by.set(key, side);
    const { left, base } = spots[side];
    room.take(left, base - 11, left + width, base + 3);
    return spots[side];
  }
}
