// @ts-check
// Marks that cover one another: how many lie there, and how they fan out.

/** @typedef {import("./mark.js").Mark} Mark */
/** @typedef {{ x: number, y: number }} Spot */

/** Marks that are nearer than these pixels cover one another, large ones and dots. */
const NEAR = { large: 9, small: 5 };
/** So many fan out; where more lie, one goes closer first. */
export const MOST = 40;
/** So many stand on a ring, pixels from each other; more stand on a spiral. */
const RING = 14, STEP = 30;

/**
 * The marks that cover one another, from the top one down: a list for each place, of one or more.
 * @param {Mark[]} marks in the order in which they are drawn
 * @param {boolean} small
 */
export function pilesOf(marks, small) {
  const near = small ? NEAR.small : NEAR.large;
  /** @type {Map<string, Mark[][]>} */
  const cells = new Map();
  const cell = (/** @type {number} */ at) => Math.floor(at / near);
  /** @type {Mark[][]} */
  const piles = [];
  for (let n = marks.length - 1; n >= 0; n--) {
    const mark = marks[n], pile = nearPile(cells, mark, cell, near);
    if (pile) {
      pile.push(mark);
      continue;
    }
    const own = [mark], key = `${cell(mark.x)} ${cell(mark.y)}`, list = cells.get(key);
    piles.push(own);
    if (list) list.push(own);
    else cells.set(key, [own]);
  }
  return piles;
}
/**
 * The pile whose top is near a mark.
 * @param {Map<string, Mark[][]>} cells
 * @param {Mark} mark
 * @param {(at: number) => number} cell
 * @param {number} near
 */
function nearPile(cells, { x, y }, cell, near) {
  for (const right of [0, -1, 1])
    for (const down of [0, -1, 1])
      for (const pile of cells.get(`${cell(x) + right} ${cell(y) + down}`) || [])
        if (Math.hypot(pile[0].x - x, pile[0].y - y) < near) return pile;
  return null;
}
/**
 * Where so many marks stand around a place, as steps from it.
 * @param {number} n
 * @returns {Spot[]}
 */
export function spotsAround(n) {
  if (n <= RING) {
    const radius = Math.max(1.1 * STEP, n * STEP / (2 * Math.PI));
    return Array.from({ length: n }, (_, k) => {
      const angle = 2 * Math.PI * k / n - Math.PI / 2;
      return { x: radius * Math.cos(angle), y: radius * Math.sin(angle) };
    });
  }
  const spots = [];
  for (let k = 0, angle = 0, radius = 1.2 * STEP; k < n; k++) {
    spots.push({ x: radius * Math.cos(angle), y: radius * Math.sin(angle) });
    angle += STEP / radius;
    radius += STEP * STEP / (2 * Math.PI * radius);
  }
  return spots;
}

/** The marks that are fanned out, by their keys. */
export class Fan {
  constructor() {
    /** @type {string[]} */
    this.keys = [];
    /** @type {number[] | null} */
    this.at = null;
  }
  get isOpen() {
    return this.at !== null;
  }
  /**
   * Fans out marks around the top one.
   * @param {Mark[]} pile
   */
  open(pile) {
    this.keys = pile.map(it => it.thing.key).sort();
    this.at = [...pile[0].place.vector];
  }
  close() {
    this.keys = [];
    this.at = null;
  }
  /**
   * Puts its marks in their places around a spot; gives them.
   * @param {Mark[]} marks
   * @param {Spot} spot
   */
  spread(marks, { x, y }) {
    const spots = spotsAround(this.keys.length);
    const by = new Map(this.keys.map((key, n) => [key, spots[n]]));
    return marks.filter(it => {
      const step = by.get(it.thing.key);
      if (step) Object.assign(it, { x: x + step.x, y: y + step.y });
      return step !== undefined;
    });
  }
}
