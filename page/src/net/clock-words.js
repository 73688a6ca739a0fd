// @ts-check
// A receiver's clock beside the others', in words.

import { isOff } from "./clock-offsets.js";
import { age, unitsOf } from "../util/time.js";

/**
 * How far two clocks are apart, in whole units, and the rest in smaller ones.
 * @param {number} seconds
 */
export function apartText(seconds) {
  const far = Math.round(Math.abs(seconds)), { n, size } = unitsOf(far), rest = far - n * size;
  return rest >= Math.max(1, size / 60) ? `${age(far)} ${age(rest)}` : age(far);
}
/** @param {number} seconds */
const aheadText = seconds => `${seconds < 0 ? "\u2212" : "+"}${apartText(seconds)}`;
/**
 * @param {{ clock: import("./clock-offsets.js").Clock | null }} it
 * @param {number} gap in seconds
 */
export function clockWords({ clock }, gap) {
  const few = "too few transmissions that others heard too";
  if (!clock) return { text: "", title: few, wrong: false };
  const { by, of, from } = clock;
  if (Number.isNaN(by)) {
    const text = from.map(one => `${aheadText(one.by)} from ${one.b}`).join(", ");
    return { text, title: "no two receivers agree, so none is known to be right", wrong: true };
  }
  const title = `the middle of ${of} transmissions that others heard too`;
  const wrong = isOff(clock, gap);
  return { text: wrong ? aheadText(by) : `within ${gap} s`, title, wrong };
}
