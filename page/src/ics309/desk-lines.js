// @ts-check
// Whose lines stand in the form: how many each desk has, what takes all of them away, and what a
// page that was dropped here offers.

import { make, makeButton } from "../util/dom.js";
import { count, printable } from "../util/text.js";

/** @param {string} words @param {string} about @param {() => void} onclick */
const button = (words, about, onclick) => makeButton(words, onclick, `${words}: ${about}`);
/** How many lines there are, and whose. */
const textOf = (/** @type {string} */ desk, /** @type {number} */ n) =>
  desk ? `${count(n, "line")} of ${printable(desk)}` : `${count(n, "line")} of your own`;
/**
 * A desk with its lines; they are taken away after a question.
 * @param {string} desk @param {number} n @param {(desk: string) => void} onRemove
 */
function deskNode(desk, n, onRemove) {
  const text = textOf(desk, n), node = make("li", {});
  const rest = () => node.replaceChildren(text, " ", button("take all away", text, ask));
  function ask() {
    const yes = button("yes", text, () => onRemove(desk));
    node.replaceChildren(`take ${text} away? `, yes, " ", button("no", text, rest));
    yes.focus();
  }
  rest();
  return node;
}
/**
 * All desks, and the pages that offer lines.
 * @param {[string, number][]} desks
 * @param {Map<string, unknown[]>} offered
 * @param {{ onRemove: (desk: string) => void,
 *   onAnswer: (name: string, isTaken: boolean) => void }} of
 */
export const deskNodes = (desks, offered, { onRemove, onAnswer }) => [
  ...[...offered].map(([name, lines]) => {
    const text = `${count(lines.length, "line")} of ${printable(name)}`;
    return make("li", { className: "warn" }, `${text}: `,
      button("take them", text, () => onAnswer(name, true)), " ",
      button("leave them", text, () => onAnswer(name, false)));
  }),
  ...desks.map(([desk, n]) => deskNode(desk, n, onRemove))];
