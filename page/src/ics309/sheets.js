// @ts-check
// The communications log ICS-309: messages and bulletins, and the operator's own lines, on sheets.

import { cell } from "../lists/table-view.js";
import { entriesOf } from "../net/log-entries.js";
import { air, byId, callIn, letters, make, makeButton, momentOf, textOf } from "../util/dom.js";
import { printable, said } from "../util/text.js";
import { datedBy, fullText, zonesText, zoneText } from "../util/time.js";

/** @typedef {import("../net/message-table.js").Message} Message */
/** @typedef {import("./own-lines.js").Line} Line */
/** @typedef {import("../net/settings.js").Settings} Settings */
/** @typedef {import("../net/roster.js").Names} Names */
/** @typedef {import("../net/log-entries.js").Entry} Entry */

/**
 * Of a sheet of paper, A4 or Letter: points for rows, on the first sheet and on the others, of a
 * row and of each line in it; and how many letters a line of text and one of a name have.
 */
const SHEET = { first: 430, next: 560, row: 3.5, line: 12.5, text: 48, name: 14 };
/**
 * The height of an entry on paper, in points.
 * @param {Entry} it
 * @param {Names} names
 */
function heightOf({ from, to, text }, names) {
  const lines = (/** @type {string} */ of, /** @type {number} */ wide) =>
    Math.max(1, Math.ceil(said(of).length / wide));
  const most = Math.max(lines(names.shown(from), SHEET.name), lines(names.shown(to), SHEET.name),
    lines(`${text} (acknowledged)`, SHEET.text));
  return SHEET.row + SHEET.line * most;
}
/**
 * Entries on sheets, one of none too.
 * @param {Entry[]} entries
 * @param {Names} names
 * @returns {Entry[][]}
 */
export function sheetsOf(entries, names) {
  /** @type {Entry[][]} */
  const sheets = [[]];
  let left = SHEET.first;
  for (const it of entries) {
    const high = heightOf(it, names);
    if (high > left && sheets[sheets.length - 1].length) {
      sheets.push([]);
      left = SHEET.next;
    }
    sheets[sheets.length - 1].push(it);
    left -= high;
  }
  return sheets;
}

/** So many sheets at most are printed, and filled at once. */
const MOST = 200, AT_ONCE = 12;
/** How all is written, and what takes a line away. */
/** @typedef {{ settings: Settings, onRemove: (line: Line) => void }} Writing */
/** @param {Entry} it @param {Writing} writing */
function rowOf(it, { settings, onRemove }) {
  const { own } = it;
  const name = own ? printable : (/** @type {string} */ call) => settings.names.shown(call);
  const remove = own && makeButton("take away", () => onRemove(own),
    `take line ${it.number} away`, { className: "no-print" });
  const className = !own ? "" : own.desk ? "own of-desk" : "own";
  return make("tr", { className }, cell("num", String(it.number)),
    cell("num time", momentOf(it.at, settings)), cell("call", callIn(name(it.from))),
    cell("id", own ? letters(printable(it.id)) : it.id),
    cell("call", callIn(name(it.to))),
    cell("text", own ? letters(printable(it.text)) : air(it.text),
      it.note ? make("small", { textContent: ` (${it.note})` }) : null,
      own ? " " : null, remove));
}
const HEADS = [["num", "no."], ["", "time"], ["", "from"], ["", "msg no."], ["", "to"],
  ["", "message"]];
/**
 * What stands on a sheet, with its number; the first is below the form's own head.
 * @param {Entry[]} entries
 * @param {number} n
 * @param {number} of how many sheets there are
 * @param {Writing} writing
 */
function partsOf(entries, n, of, writing) {
  const field = (/** @type {import("../util/dom.js").Input} */ id) => byId(id).value;
  const number = make("span", { className: "sheet-number", textContent: `page ${n + 1} of ${of}` });
  const above = n ? ["ICS 309", field("ics-incident"), textOf("ics-period"),
    field("ics-net"), field("ics-operator")].filter(Boolean).map(printable).join(" \u00b7 ") : "";
  const head = make("span", { textContent: above || "5. communications log" });
  return [make("p", {}, head, " ", number),
    make("table", {}, make("thead", {}, make("tr", {}, ...HEADS.map(([className, textContent]) =>
      make("th", { scope: "col", className, textContent })))),
    make("tbody", {}, ...entries.map(it => rowOf(it, writing))))];
}
/** The sheets of the form, of which those are there that come into view, and all on paper. */
class Sheets {
  constructor() {
    /** @type {Entry[][]} */
    this.all = [];
    /** @type {Writing | null} */
    this.writing = null;
    /** @type {IntersectionObserver | null} */
    this.observer = null;
  }
  /** @param {Entry[][]} all @param {Writing} writing */
  show(all, writing) {
    Object.assign(this, { all, writing });
    this.observer?.disconnect();
    this.observer = new IntersectionObserver(seen => {
      for (const { target, isIntersecting } of seen)
        this.turn(/** @type {HTMLElement} */ (target), isIntersecting);
    }, { rootMargin: "1500px" });
    byId("ics-rest").textContent = "";
    const box = byId("ics-sheets"), before = [...box.children].filter(it => it.firstChild)
      .map(it => Number(/** @type {HTMLElement} */ (it).dataset.n));
    box.replaceChildren(...all.map((entries, n) => {
      const node = make("div", { className: "sheet", data: { n } });
      const high = entries.reduce((sum, it) => sum + heightOf(it, writing.settings.names), 0);
      node.style.minHeight = `${Math.round(high)}pt`;
      return node;
    }));
    const nodes = /** @type {HTMLElement[]} */ ([...box.children]);
    // what is in view is there at once, and the rest once it is seen that it is
    for (const n of [0, ...before].slice(0, AT_ONCE)) if (nodes[n]) this.turn(nodes[n], true);
    for (const it of nodes) this.observer.observe(it);
  }
  /**
   * Fills a sheet that comes into view, and empties one that leaves it, which stays as high.
   * @param {HTMLElement} node @param {boolean} isSeen
   */
  turn(node, isSeen) {
    const n = Number(node.dataset.n), isFilled = node.firstChild !== null;
    if (isSeen === isFilled || !this.writing) return;
    if (isFilled) node.style.minHeight = `${node.offsetHeight}px`;
    node.replaceChildren(...isSeen ? partsOf(this.all[n], n, this.all.length, this.writing) : []);
    if (isSeen) node.style.minHeight = "";
  }
  /** Fills all for paper; where that is too much, it says so. */
  whole() {
    const nodes = /** @type {HTMLElement[]} */ ([...byId("ics-sheets").children]);
    for (const it of nodes.slice(0, MOST)) this.turn(it, true);
    const left = this.all.slice(MOST).reduce((sum, it) => sum + it.length, 0);
    byId("ics-rest").textContent = left
      ? `and ${left.toLocaleString("en")} lines more, which are saved as CSV` : "";
  }
}
export const sheetsShown = new Sheets();
/**
 * Fills the form with the messages that are shown and with own lines.
 * @param {{ rows: ArrayLike<number>, begin: number, end: number, messages: Message[],
 *   bulletins: Message[] }} net
 * @param {{ lines: Line[], settings: Settings, onRemove: (line: Line) => void }} of
 */
export function fillForm(net, { lines, settings, onRemove }) {
  const entries = entriesOf(net, lines), sheets = sheetsOf(entries, settings.names);
  const some = net.rows.length > 0, now = Date.now() / 1000;
  byId("ics-period").textContent = some
    ? `${fullText(net.begin, settings)} to ${fullText(net.end, settings)}` : "";
  byId("ics-zone").textContent = some ? zonesText(net.begin, net.end, settings)
    : zoneText(now, settings);
  byId("ics-date").textContent = fullText(now, settings);
  const dated = datedBy(entries.map(it => it.at), settings);
  sheetsShown.show(sheets, { settings: { ...settings, dated }, onRemove });
}
/**
 * A moment as a field for date and time has it, in the time that the page shows.
 * @param {number} seconds
 * @param {{ local: boolean }} clock
 */
export function fieldOf(seconds, { local }) {
  const off = local ? new Date(seconds * 1000).getTimezoneOffset() * 60 : 0;
  return new Date((seconds - off) * 1000).toISOString().slice(0, 19);
}
/**
 * The moment of such a field, or not a number.
 * @param {string} text
 * @param {{ local: boolean }} clock
 */
export const momentIn = (text, { local }) => Date.parse(local ? text : text + "Z") / 1000;
