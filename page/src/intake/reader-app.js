// @ts-check
// The page that reads logs: what is dropped on it goes through the module, and nothing leaves it.

import { page } from "../app/state.js";
import { fromBase64 } from "../formats/base64.js";
import { unpacked } from "../formats/gunzip.js";
import { add, lookAgain } from "./adding.js";
import { drawAgain, drawEmpty, drawnShiftOf, madeNow, work } from "./book.js";
import { contents } from "./page-parts.js";
import { receiversIn } from "./clock-shift.js";
import { files } from "./file-table.js";
import { filesOf } from "./folders.js";
import { asText, shifts } from "./intake.js";
import { options, takeOptions } from "./options.js";
import { drawOwnSaves } from "./own-saves.js";
import { say } from "./progress.js";
import { byId } from "../util/dom.js";
import { messageOf } from "../util/text.js";
import { beginWorkers } from "../worker/pool.js";

/**
 * Puts the clock of a receiver forward by so many seconds, or back, or leaves it as it was; all
 * logs are read anew.
 * @param {string} name
 * @param {number} by
 */
async function shiftClock(name, by) {
  if (by) shifts.set(name, by);
  else shifts.delete(name);
  await lookAgain(files.filter(it => !it.unread && it.kind !== "book"));
  work();
}
/**
 * The clocks that can be put right: of receivers that a log has.
 * @type {import("../lists/stations.js").ClockOf}
 */
const clockOf = {
  shifted: drawnShiftOf,
  can: name => files.some(it => it.taken && it.kind !== "book" &&
    (it.taken instanceof Blob || receiversIn(it.taken).has(name))),
  put: shiftClock,
};

/** Takes the example that is in the page: logs by their names, packed. */
async function takeExample() {
  /** @type {Record<string, string>} */
  const logs = JSON.parse(asText(await unpacked(contents.example)));
  await add(Object.entries(logs).map(([name, text]) => new File([text], name)));
}
function listen() {
  byId("example").onclick = takeExample;
  for (const id of /** @type {const} */ (["choose", "choose-folder"]))
    byId(id).onchange = () => {
      add([...byId(id).files || []].filter(it => !it.name.startsWith(".")));
      byId(id).value = ""; // so that the same file can be chosen again
    };
  byId("gap").onchange = async () => {
    takeOptions();
    if (options.isGap) await lookAgain(files);
    work();
  };
  byId("name").onchange = byId("silent").onchange = () => {
    takeOptions();
    drawAgain();
  };
  for (const kind of /** @type {const} */ (["dragover", "dragleave", "drop"]))
    addEventListener(kind, event => {
      const { dataTransfer, target } = event;
      const hasFiles = Boolean(dataTransfer?.types.includes("Files"));
      // a text may be dropped into a field
      if (!hasFiles && target instanceof HTMLInputElement) return;
      event.preventDefault();
      byId("drop").classList.toggle("over", hasFiles && kind === "dragover");
      if (dataTransfer && hasFiles && kind === "drop") filesOf(dataTransfer).then(add);
    });
}
/** Makes workers, and says whether this browser can. */
export async function beginReading() {
  takeOptions();
  drawOwnSaves(madeNow);
  page.clockOf = clockOf;
  drawEmpty("aprsbook");
  try {
    // compiled once, for all workers
    const module = await WebAssembly.compile(fromBase64(contents.module));
    await beginWorkers(contents.worker, module, why => say(why, true));
  } catch (fault) {
    say(`This browser can't run the page (${messageOf(fault)}): it takes Chromium or Edge ` +
      "133, Firefox 134, or newer.", true);
    return false;
  }
  listen();
  byId("choose").disabled = false;
  say("");
  return true;
}
