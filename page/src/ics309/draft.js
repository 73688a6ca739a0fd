// @ts-check
// What stands in the fields of the form ICS-309, and whether it is open: it outlives loading the
// page again, as a page on a disk does by itself, for as long as its window is there.

import { byId } from "../util/dom.js";

const FIELDS = /** @type {const} */ (["ics-incident", "ics-net", "ics-operator", "ics-by", "own-at",
  "own-from", "own-to", "own-id", "own-text"]);
/** What this window keeps, where it may. */
function storeOf() {
  try {
    return globalThis.sessionStorage || null;
  } catch {
    return null; // it is forbidden here
  }
}
const keyOf = () => `aprsbook form: ${globalThis.location?.pathname ?? ""}`;

/**
 * Keeps the fields as they are now.
 * @param {boolean} isOpen
 * @param {Pick<Storage, "setItem"> | null} store
 */
export function keepDraft(isOpen, store = storeOf()) {
  const fields = Object.fromEntries(FIELDS.map(id => [id, byId(id).value]));
  try {
    store?.setItem(keyOf(), JSON.stringify({ isOpen, fields }));
  } catch {
    // it is full, or forbidden
  }
}
/**
 * Fills the fields as they were; says whether the form was open.
 * @param {Pick<Storage, "getItem"> | null} store
 */
export function readDraft(store = storeOf()) {
  try {
    const { isOpen, fields } = JSON.parse(store?.getItem(keyOf()) || "{}");
    for (const id of FIELDS)
      if (typeof fields?.[id] === "string") byId(id).value = fields[id];
    return isOpen === true;
  } catch {
    return false;
  }
}
