// @ts-check
// The mouse, fingers and keys on the map.

/**
 * What hands and keys do with a map.
 * @typedef {{ node: HTMLElement, view: { width: number }, isFull: boolean,
 *   keys: Record<string, () => void>, move: (right: number, down: number) => void,
 *   zoom: (by: number, ...at: [number, number] | []) => void, fit: () => void,
 *   fill: (full: boolean) => void, turn: () => void, hint: () => void, paintSoon: () => void,
 *   tap: (x: number, y: number) => void, point: (at: [number, number] | null) => void,
 *   tip: (x: number, y: number) => (string | Node)[] }} Movable
 */
/** @type {Record<string, (map: Movable) => void>} */
const KEYS = {
  ArrowLeft: map => map.move(60, 0), ArrowRight: map => map.move(-60, 0),
  ArrowUp: map => map.move(0, 60), ArrowDown: map => map.move(0, -60),
  "+": map => map.zoom(1.3), "=": map => map.zoom(1.3), "-": map => map.zoom(1 / 1.3),
  0: map => map.fit(), f: map => map.fill(!map.isFull),
};
/** @param {Movable} map */
function listenToKeys(map) {
  map.node.addEventListener("keydown", event => {
    const { key } = event, own = Object.hasOwn(map.keys, key) ? map.keys[key] : null;
    if (!own && !Object.hasOwn(KEYS, key) || event.ctrlKey || event.altKey || event.metaKey) return;
    event.preventDefault();
    if (own) own();
    else KEYS[key](map);
    map.turn();
  });
}
/** So much a wheel zooms for a pixel of it; fingers drawn apart on a trackpad say `ctrl`. */
const PER_PIXEL = Math.log(1.2) / 100, PINCHED = 0.01;
/**
 * How much a turn of a wheel zooms, by its size; sideways it doesn't.
 * @param {{ deltaX: number, deltaY: number, deltaMode: number, ctrlKey: boolean }} event
 */
export function zoomOf({ deltaX, deltaY, deltaMode, ctrlKey }) {
  if (Math.abs(deltaX) > Math.abs(deltaY)) return 1;
  // lines, and pages
  const pixels = deltaY * [1, 100 / 3, 300][deltaMode];
  const most = 3 * 100 * PER_PIXEL, by = pixels * (ctrlKey ? PINCHED : PER_PIXEL);
  return Math.exp(-Math.max(-most, Math.min(most, by)));
}
/** @param {Movable} map @param {(event: MouseEvent) => [number, number]} pixel */
function listenToWheel(map, pixel) {
  map.node.addEventListener("wheel", event => {
    event.preventDefault();
    const by = zoomOf(event);
    if (by === 1) map.move(-event.deltaX * [1, 100 / 3, 300][event.deltaMode], 0);
    else map.zoom(by, ...pixel(event));
    map.turn();
  }, { passive: false });
}
/**
 * One finger scrolls the page, and two move the map, but where the map fills the window. The mouse
 * and a pen move it at once.
 * @param {Movable} map
 * @param {PointerEvent} event
 * @param {number} fingers
 */
const mayMove = (map, event, fingers) =>
  event.pointerType !== "touch" || fingers > 1 || map.isFull;
/** @typedef {[number, number]} Spot a pixel of the map */
/**
 * Moves the map as a finger or the mouse went, and zooms as two fingers went apart.
 * @param {Movable} map
 * @param {Spot} before
 * @param {Spot} now
 * @param {Spot | undefined} other where another finger is
 */
function drag(map, before, now, other) {
  if (!other) return map.move(now[0] - before[0], now[1] - before[1]);
  const off = (/** @type {Spot} */ it) => Math.hypot(it[0] - other[0], it[1] - other[1]) || 1;
  map.move((now[0] - before[0]) / 2, (now[1] - before[1]) / 2);
  map.zoom(off(now) / off(before), (now[0] + other[0]) / 2, (now[1] + other[1]) / 2);
}
/**
 * Two fingers are the map's, and so is one where it fills the window.
 * @param {Movable} map
 */
function listenToTouch(map) {
  for (const kind of /** @type {const} */ (["touchstart", "touchmove"]))
    map.node.addEventListener(kind, event => {
      if (event.touches.length > 1 || map.isFull) event.preventDefault();
      else if (kind === "touchmove") map.hint();
    }, { passive: false });
}
/** @param {Movable} map */
export function listenToMap(map) {
  const { node } = map;
  /** @type {Map<number, Spot>} */
  const fingers = new Map();
  let moved = 0, most = 0;
  /** @type {(event: MouseEvent) => Spot} */
  const pixel = event => {
    const box = node.getBoundingClientRect();
    return [event.clientX - box.left, event.clientY - box.top];
  };
  listenToKeys(map);
  listenToWheel(map, pixel);
  listenToTouch(map);
  node.addEventListener("pointerdown", event => {
    // that another button of a mouse is let go is said to a menu alone, in most systems
    if (event.pointerType === "mouse" && event.button) return;
    if (!fingers.size) most = 0;
    fingers.set(event.pointerId, pixel(event));
    most = Math.max(most, fingers.size);
    moved = 0;
  });
  addEventListener("pointermove", event => {
    const before = fingers.get(event.pointerId);
    if (!before) return;
    const now = pixel(event), other = [...fingers].find(([id]) => id !== event.pointerId)?.[1];
    fingers.set(event.pointerId, now);
    moved += Math.hypot(now[0] - before[0], now[1] - before[1]);
    if (!mayMove(map, event, fingers.size)) return;
    drag(map, before, now, other);
    map.paintSoon();
  });
  addEventListener("pointerup", event => {
    if (!fingers.delete(event.pointerId)) return;
    if (moved > 6 || most > 1) return map.turn();
    map.tap(...pixel(event));
  });
  addEventListener("pointercancel", event => fingers.delete(event.pointerId));
  node.addEventListener("pointermove", event => hover(map, fingers.size ? null : pixel(event)));
  // after a finger the place stays, since it can't hover
  node.addEventListener("pointerleave", event => hover(map, null, event.pointerType === "touch"));
}
/**
 * Says beside the pointer what is under it.
 * @param {Movable} map
 * @param {[number, number] | null} at
 */
function hover(map, at, stays = false) {
  if (!stays) map.point(at);
  const tip = /** @type {HTMLElement} */ (map.node.querySelector(".tip"));
  const nodes = at ? map.tip(...at) : [];
  map.node.style.cursor = nodes.length ? "pointer" : "";
  tip.hidden = !nodes.length;
  if (!at || !nodes.length) return;
  tip.replaceChildren(...nodes);
  tip.style.left = `${Math.min(at[0] + 14, map.view.width - 170)}px`;
  tip.style.top = `${at[1] + 14}px`;
}
