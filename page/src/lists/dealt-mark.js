// @ts-check
// Marks that somebody deals with an alarm: who and when, and what sets or takes back one.

import { make, makeButton } from "../util/dom.js";
import { printable } from "../util/text.js";
import { timeText } from "../util/time.js";

/** @typedef {{ desk: string, at: number, note: string }} Mark at milliseconds since 1970 */
/**
 * What is dealt with: the mark of an alarm, what sets one with a note, and what takes it back.
 * @typedef {{ markOf: (alarm: string) => Mark | null,
 *   onDeal: (alarm: string, note: string) => void, onUndo: (alarm: string) => void }} Marking
 */
/**
 * What is said of a mark: who, and when.
 * @param {Mark} mark @param {import("../util/time.js").Clock} clock
 */
export const markWords = ({ desk, at, note }, clock) => `${printable(note) || "dealt with"} (${
  desk ? `${printable(desk)}, ` : ""}${timeText(at / 1000, clock)})`;
/** The class of what sets a mark, by which a list finds an entry that wants one. */
export const SETS = "sets";
/**
 * The mark of an alarm with what takes it back, or what sets one.
 * @param {string} alarm
 * @param {string} about what a person calls that
 * @param {Marking & { settings: import("../util/time.js").Clock }} of
 * @param {string[]} notes one of which is chosen; "" for none
 * @returns {(Node | string)[]}
 */
export function dealtNodes(alarm, about, { markOf, onDeal, onUndo, settings }, notes = [""]) {
  const mark = markOf(alarm);
  const button = (/** @type {string} */ words, /** @type {() => void} */ onclick) =>
    makeButton(words, onclick, `${words}: ${about}`,
      { className: `deal no-print ${mark ? "" : SETS}`, data: { alarm } });
  if (mark) return [" ", make("small", { className: "mark-told",
    textContent: markWords(mark, settings) }), " ", button("take back", () => onUndo(alarm))];
  return notes.flatMap(note => [" ", button(note || "dealt with", () => onDeal(alarm, note))]);
}
