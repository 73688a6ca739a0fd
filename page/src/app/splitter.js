// @ts-check
// The edge of the map, which is dragged: below it for its height, and on a wide screen, where lists
// stand beside it, for its width.

import { choose, chosen } from "../util/dom.js";

/** A wide screen, as page.css has it. */
const WIDE = "(min-width: 76rem)";
/** In pixels, and in hundredths of what there is. */
const SIZES = { high: { least: 160, most: 4000 }, wide: { least: 25, most: 75 } };
/** So much does an arrow key. */
const STEPS = { high: 40, wide: 2 };

/** @typedef {"high" | "wide"} Side */
/**
 * A size within its bounds, as a whole number, or nothing where it is none.
 * @param {Side} side
 * @param {number} size
 */
export function bounded(side, size) {
  const { least, most } = SIZES[side];
  return Number.isFinite(size) ? Math.round(Math.max(least, Math.min(most, size))) : null;
}
/**
 * Says how large the map is, as whoever reads the screen wants it.
 * @param {HTMLElement} edge
 * @param {Side} side
 * @param {number} size
 */
function tell(edge, side, size) {
  const { least, most } = SIZES[side];
  const values = { valuemin: least, valuemax: most, valuenow: bounded(side, size),
    orientation: side === "wide" ? "vertical" : "horizontal" };
  for (const [name, value] of Object.entries(values))
    edge.setAttribute(`aria-${name}`, String(value));
}
const isWide = () => matchMedia(WIDE).matches;
/**
 * Gives the map a size, or, with nothing, that which fits.
 * @param {Side} side
 * @param {number | null} size
 */
function put(side, size) {
  const { style } = document.documentElement, name = `--map-${side}`;
  if (size === null) style.removeProperty(name);
  else style.setProperty(name, size + (side === "high" ? "px" : "%"));
  choose(side, size === null ? "" : String(size));
}
/**
 * Has the edge of a map dragged.
 * @param {HTMLElement} edge
 * @param {HTMLElement} map
 */
export function listenToEdge(edge, map) {
  /** @type {() => [Side, number]} */
  const now = () => {
    const box = map.getBoundingClientRect();
    const all = edge.closest("main")?.getBoundingClientRect().width || 1;
    return isWide() ? ["wide", (edge.getBoundingClientRect().right - box.left) / all * 100]
      : ["high", box.height];
  };
  new ResizeObserver(() => tell(edge, ...now())).observe(map);
  for (const side of /** @type {Side[]} */ (["high", "wide"])) {
    const size = chosen.has(side) ? bounded(side, Number(chosen.get(side))) : null;
    if (size !== null) put(side, size);
  }
  edge.addEventListener("pointerdown", event => {
    if (event.button) return;
    event.preventDefault();
    edge.setPointerCapture(event.pointerId);
    edge.focus();
  });
  edge.addEventListener("pointermove", ({ pointerId, clientX, clientY }) => {
    if (!edge.hasPointerCapture(pointerId)) return;
    const [side] = now(), box = map.getBoundingClientRect();
    const all = edge.closest("main")?.getBoundingClientRect().width || 1;
    const size = side === "wide" ? (clientX - box.left) / all * 100 : clientY - box.top;
    put(side, bounded(side, size));
  });
  edge.addEventListener("dblclick", () => put(now()[0], null));
  edge.addEventListener("keydown", event => {
    const [side, size] = now(), keys = side === "wide" ? ["ArrowLeft", "ArrowRight"]
      : ["ArrowUp", "ArrowDown"], way = keys.indexOf(event.key);
    if (way < 0 && event.key !== "Home") return;
    event.preventDefault();
    put(side, way < 0 ? null : bounded(side, size + (way ? 1 : -1) * STEPS[side]));
  });
}
