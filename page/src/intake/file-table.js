// @ts-check
// The files that were given, as a table: what each is, what the program says of it, and what can be
// done with it.

import { REASONS } from "../formats/file-kinds.js";
import { movedIn, receiversIn } from "./clock-shift.js";
import { leaveOut, lineText, look, shifts, SHOWN } from "./intake.js";
import { options } from "./options.js";
import { rowHead } from "../lists/table-view.js";
import { apartText } from "../net/clock-words.js";
import { byId, make, makeButton, replaceIn, save } from "../util/dom.js";
import { count, printable } from "../util/text.js";
import { sizeOf } from "../worker/sources.js";

/** @typedef {import("./intake.js").Given} Given */
/** @typedef {() => unknown} Work makes the book anew of what the files are now */
/** @type {Given[]} */
export const files = [];

/**
 * Takes a file away; the focus goes to the next one.
 * @param {Given} file
 * @param {Work} work
 */
function takeAway(file, work) {
  const at = files.indexOf(file);
  files.splice(at, 1);
  work();
  (awayOf(files[Math.min(at, files.length - 1)]?.row) || byId("choose")).focus();
}
/**
 * What takes a file away, the last button of its row.
 * @param {HTMLTableRowElement | undefined} row
 * @returns {HTMLButtonElement | null}
 */
const awayOf = row => row?.querySelector("td:last-child button") ?? null;
/**
 * Fields for what a KISS stream doesn't say.
 * @param {Given} file
 * @param {Work} work
 */
function fieldsOf(file, work) {
  const field = (/** @type {"receiver" | "moment"} */ key, /** @type {object} */ of) => {
    const node = make("input", { value: file[key], ...of, async onchange() {
      file[key] = node.value;
      await look(file, options.gap);
      work();
    } });
    return node;
  };
  return make("p", {},
    make("label", { textContent: "receiver " }, field("receiver", { size: 9 })),
    make("label", { textContent: " heard at " },
      field("moment", { size: 24, placeholder: "2024-06-21T18:00:00Z" })));
}
/** @param {Given} file @param {Work} work */
function fileRow(file, work) {
  const name = printable(file.name);
  const away = makeButton("take away", () => takeAway(file, work), `take ${name} away`);
  return make("tr", {}, rowHead(name), make("td"),
    make("td", { className: "num" }),
    make("td", {}, make("span", { className: "verdict" }), make("span", { className: "more" }),
      file.kind === "KISS stream" ? fieldsOf(file, work) : null), make("td", {}, away));
}
/** So few lines stand there open. */
const OPEN = 10;
/** @param {string} words @param {string[]} lines the first of so many, if not all */
function linesOf(words, lines, isOpen = false, many = lines.length) {
  return make("details", { open: isOpen, aria: { "aria-label": words } },
    make("summary", { textContent: words }),
    make("ul", {}, ...lines.slice(0, SHOWN).map(it => make("li", { textContent: printable(it) }))),
    many > SHOWN ? make("p", { textContent: `and ${many - SHOWN} more` }) : null);
}
/**
 * The damaged lines of a file, and what leaves them out.
 * @param {Given} file
 * @param {Work} work
 */
function damageOf(file, work) {
  const { damage } = file;
  if (!damage.length) return [];
  const words = `leave out ${damage.length === 1 ? "this line" : `these ${damage.length} lines`}`;
  const lines = damage.map(it => `line ${it.line}: ${it.why}: ${lineText(file, it)}`);
  return [linesOf(count(damage.length, "damaged line"), lines, damage.length <= OPEN),
    makeButton(words, async () => {
      leaveOut(file);
      await look(file, options.gap);
      work();
    }, "", { className: "leave" })];
}
/**
 * What is said of a clock that is put right.
 * @param {string} name
 * @param {number} by
 */
export const shiftText = (name, by) =>
  `the clock of ${name} was put ${apartText(by)} ${by < 0 ? "back" : "forward"} here`;
/**
 * A log that is at hand, as all are where clocks are put right.
 * @param {Given} file
 */
const logOf = ({ kind, taken }) => taken instanceof Uint8Array && kind !== "book" ? taken : null;
/**
 * What the page says of the clocks that are put right, of the receivers of its logs.
 * @param {Map<string, number>} by
 */
export const shiftNotes = by => [...by].filter(([name]) => files.some(it => {
  const log = logOf(it);
  return log && receiversIn(log).has(name);
})).map(it => shiftText(...it));
/**
 * What is said of the clocks of a file that are put right.
 * @param {Given} file
 */
function movedText(file) {
  const log = logOf(file);
  return log ? movedIn(log, shifts).map(it => shiftText(it, shifts.get(it) || 0)).join("; ") : "";
}
/**
 * The receivers of a file whose clocks are put right, and what saves it so, as it is at the click.
 * @param {Given} file
 */
export function movedOf(file) {
  const words = movedText(file);
  if (!words) return [];
  return [make("p", { textContent: words }),
    makeButton("save it so", () => {
      const name = file.name.replace(/(\.[a-z]+)?$/i, ".put-right$&"), log = logOf(file);
      if (log) save(name, log, "text/plain");
    }, "", { className: "moved" })];
}
/**
 * What else is said of a file: its spelling, and lines passed over, refused, left out.
 * @param {Given} file
 * @param {Work} work
 */
function moreOf(file, work) {
  const { leftOut, passed, over, spelling } = file, more = [];
  if (file.away) more.push(make("p", { className: "warn", textContent: file.away }));
  if (spelling.length)
    more.push(make("p", { textContent: `as Windows writes it: ${spelling.join(", ")}` }));
  if (REASONS[file.reason]) more.push(make("p", { textContent: REASONS[file.reason] }));
  more.push(...damageOf(file, work));
  if (leftOut.length) more.push(linesOf(`${count(leftOut.length, "line")} left out`, leftOut));
  more.push(...movedOf(file));
  if (over) more.push(linesOf(`${count(over, "line")} passed over`, passed, false, over));
  return more;
}
/**
 * The row of a file as it is now. It is one node all the time, so that the focus stays in it.
 * @param {Given} file
 * @param {Work} work
 */
function rowOf(file, work) {
  const row = file.row ||= fileRow(file, work), [, kind, size, told] = row.cells;
  kind.textContent = file.kind;
  size.textContent = file.unread ? "" : sizeOf(file.bytes).toLocaleString("en");
  const [verdict, more] = /** @type {Iterable<HTMLElement>} */ (told.children);
  verdict.className = `verdict ${file.fault ? "bad" : "good"}`;
  verdict.textContent = file.fault || file.said;
  const state = [file.away, file.reason, file.damage.length, file.leftOut.length,
    file.over, file.spelling, movedText(file)].join();
  if (more.dataset.state === state) return row;
  more.dataset.state = state;
  replaceIn(more, moreOf(file, work), it => it.className, awayOf(row));
  return row;
}
/** The files with which something is wrong, by which the table was folded last. */
let foldedBy = "";
/**
 * Folds the table, so that the map is seen, or opens it where something is wrong with a file; what
 * the reader does then stays until that is another one.
 */
function fold() {
  const bad = files.filter(it => it.fault), box = byId("fold"), now = files.length
    ? `${bad.map(it => it.name).join()}:` : "";
  byId("fold-text").textContent = count(files.length, "file") +
    (bad.length ? `, ${bad.length} of them not read` : "");
  box.parentElement?.classList.toggle("filled", files.length > 0);
  if (now === foldedBy) return;
  foldedBy = now;
  const isOpen = !files.length || bad.length > 0;
  // who is at work in it stays there
  if (isOpen || !box.contains(document.activeElement)) box.open = isOpen;
}
/**
 * Draws the table of the files.
 * @param {Work} work
 */
export function drawFiles(work) {
  byId("files-box").hidden = !files.length;
  fold();
  const rows = files.map(it => rowOf(it, work)), body = byId("files").tBodies[0];
  for (const it of [...body.rows]) if (!rows.includes(it)) it.remove();
  rows.forEach((row, k) => {
    if (row !== body.children[k]) body.insertBefore(row, body.children[k] || null);
  });
}
/**
 * What a page has to say of a file: that it isn't in it, or not all of it.
 * @param {Given} file
 */
export function notesOf({ name, fault, taken, leftOut, isUnfinished }) {
  const own = printable(name);
  if (fault && !taken) return [`${own} was left out: ${fault}`];
  if (isUnfinished) return [`${own}: its last line isn\u2019t whole yet`];
  return leftOut.length ? [`${own}: ${count(leftOut.length, "damaged line")} left out`] : [];
}
