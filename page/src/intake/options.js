// @ts-check
// What the reader chose of how logs are read, and what the page is called. Fields show it, and hand
// over what is written in them.

import { byId } from "../util/dom.js";

/**
 * The title; the gap in seconds, and whether what was written is one; after how many minutes a
 * station is silent; the list of the logs that are followed, or nothing.
 */
export const options = { title: "", gap: 30, isGap: true, silent: 30, list: "" };
const NO_TITLE = "APRS net";
/** What stands for a number that a field doesn't take. */
const USUAL = 30;
const FIELDS = /** @type {const} */ ({ title: "name", silent: "silent", list: "follow" });

/** Takes what stands in the fields. */
export function takeOptions() {
  const numberIn = (/** @type {"gap" | "silent"} */ id) =>
    byId(id).validity.valid ? Number(byId(id).value) : USUAL;
  Object.assign(options, { title: byId("name").value || NO_TITLE, gap: numberIn("gap"),
    isGap: byId("gap").validity.valid, silent: numberIn("silent"), list: byId("follow").value });
}
/**
 * Chooses something in place of the reader, and shows it in its field.
 * @param {keyof typeof FIELDS} name
 * @param {string} value
 */
export function setOption(name, value) {
  byId(FIELDS[name]).value = value;
  takeOptions();
}
