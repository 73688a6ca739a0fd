// @ts-check
// What the page that reads logs says of its work.

import { byId } from "../util/dom.js";

/** @param {string} text */
export function say(text, isBad = false) {
  byId("status").textContent = text;
  byId("status").className = isBad ? "bad" : "";
}
/**
 * How far it is.
 * @param {number} share
 * @param {string} words
 */
export function tellProgress(share, words = "") {
  byId("progress").hidden = share >= 1;
  byId("progress").value = Math.round(share * 100);
  if (share < 1) say(`${words}: ${Math.round(share * 100)} %`);
}
