// @ts-check
// What the page that reads logs saves beside what each page does: the book, texts of it, and the
// page of the event.

import { widgets } from "../app/state.js";
import { placeOf } from "./intake.js";
import { options } from "./options.js";
import { say } from "./progress.js";
import { dataWithRepeats, eventPieces, readShell, tilesWithin } from "./save-event-page.js";
import { byId, make, makeButton, save } from "../util/dom.js";
import { gathered, inSlices } from "../util/tasks.js";
import { count, messageOf } from "../util/text.js";
import { run } from "../worker/pool.js";

/** @typedef {import("./runs.js").Made} Made */
/** The saves that are there once there is a book. */
const OWN = /** @type {const} */ (["book", "event", "listing", "history"]);
export const enableSaves = (/** @type {boolean} */ can) => OWN.forEach(id => {
  byId(id).disabled = !can;
});
/**
 * Says what is made while it takes long, and what went wrong.
 * @param {string} name
 * @param {() => Promise<unknown>} run
 */
async function making(name, run) {
  const { textContent: before, className } = byId("status"), words = `making ${name}`;
  const slow = setTimeout(() => say(words), 300);
  const fault = await run().then(() => "", messageOf);
  clearTimeout(slow);
  if (fault) say(fault, true);
  else if (byId("status").textContent === words) say(before || "", className === "bad");
}
/**
 * Saves what a run of the book gives.
 * @param {Made} made
 * @param {string} command
 * @param {string} name
 */
async function saveRun(made, command, name) {
  const got = await run(command, options.gap, [made.book]);
  if (got.status) throw new Error(placeOf(got));
  save(name, got.bytes, "text/plain");
}
/**
 * Saves the page of the event as it is at the click, with as much of the reader's own map as it may
 * have.
 * @param {Made} made
 * @param {() => Made | null} madeNow
 */
async function saveEvent(made, madeNow) {
  const most = byId("most").validity.valid ? +byId("most").value : 0;
  const data = await dataWithRepeats(made);
  const { tiles, leftOut } = await tilesWithin(most), many = Object.keys(tiles).length;
  const shell = await readShell();
  const pieces = await inSlices(gathered(eventPieces(tiles, data, shell)), () => true);
  if (pieces) save("event.html", pieces, "text/html");
  // where other files came the page says something else
  if (made !== madeNow() || !many && leftOut === null) return;
  say(`event.html has ${count(many, "tile")} of the map` + (leftOut === null ? ""
    : `; level ${leftOut}, and what is finer, would be more than ${most} MB`));
}
/** A field for how much of the reader's own map the saved page has, where there is such a map. */
function mostField() {
  const field = make("label", { hidden: true }, "with the map, up to ", make("input",
    { id: "most", type: "number", min: "0", max: "1000", value: "5", required: true }), " MB");
  byId("saves").addEventListener("toggle", () => {
    const { tiles } = widgets().layers;
    field.hidden = tiles.least > tiles.most;
  });
  return field;
}
/**
 * Draws the buttons.
 * @param {() => Made | null} madeNow the texts of the files, once they are made
 */
export function drawOwnSaves(madeNow) {
  const put = (/** @type {typeof OWN[number]} */ id, /** @type {string} */ name,
    /** @type {(made: Made) => unknown} */ run) => byId("saves").lastElementChild?.prepend(
    makeButton(name, () => {
      const made = madeNow();
      if (made) run(made);
    }, "", { id, disabled: true }));
  byId("saves").lastElementChild?.prepend(mostField());
  const putRun = (/** @type {"listing" | "history"} */ id, /** @type {string} */ command,
    /** @type {string} */ name) => put(id, `${id} (text)`,
    made => making(name, () => saveRun(made, command, name)));
  put("event", "page of the event (HTML)",
    made => making("event.html", () => saveEvent(made, madeNow)));
  putRun("listing", "show", "net.txt");
  putRun("history", "history", "history.txt");
  put("book", "book", made => save("net.book", made.book, "application/octet-stream"));
}
