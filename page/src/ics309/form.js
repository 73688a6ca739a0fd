// @ts-check
// The form ICS-309 as it is used: opened, filled, added to, printed and saved.

import { deskNodes } from "./desk-lines.js";
import { keepDraft, readDraft } from "./draft.js";
import { fieldOf, fillForm, momentIn, sheetsShown } from "./sheets.js";
import { byId } from "../util/dom.js";
import { count, keepsNo } from "../util/text.js";

/** @typedef {import("../util/dom.js").Input} Input */
/** @typedef {import("./own-lines.js").Line} Line */

/** A net that was heard within so many seconds goes on. */
const DAY = 86400;

/** The form of a page, with the operator's own lines. */
export class Form {
  /**
   * @param {{ shown: { net: import("../net/net.js").Net,
   *   data: { title: string, lines?: unknown } } | null,
   *   settings: import("../net/settings.js").Settings,
   *   own: import("./own-lines.js").OwnLines, marks: { isAtRisk: boolean } | null }} page
   * @param {{ now: () => number, save: () => void }} of the moment of the page, and what saves the
   *   log as CSV
   */
  constructor(page, { now, save }) {
    this.page = page;
    this.now = now;
    this.save = save;
    /** Whether the moment of the next line is the reader's, and doesn't go on. */
    this.isTimed = false;
  }
  get isOpen() {
    return !byId("ics").hidden;
  }
  /** Whether a line is being written. */
  get isWritten() {
    return this.isOpen && byId("own-text").value !== "";
  }
  /** Draws it where it is open. */
  draw() {
    const { shown, own, settings } = this.page;
    if (!this.isOpen || !shown) return;
    fillForm(shown.net, { lines: own.lines, settings, onRemove: line => this.remove(line) });
    const run = (/** @type {boolean} */ isKept) => {
      this.draw();
      this.tell(isKept);
    };
    byId("own-desks").replaceChildren(...deskNodes(own.desks, own.offered, {
      onRemove: desk => run(own.removeDesk(desk)),
      onAnswer: (name, isTaken) => run(own.answer(name, isTaken)) }));
  }
  /** Whether the net is of another day, so that now is no moment of it. */
  get isOver() {
    const end = this.now();
    return Number.isFinite(end) && Math.abs(Date.now() / 1000 - end) > DAY;
  }
  /** Puts the moment of the next line: now, or of a net of another day its end. */
  putMoment() {
    const at = this.isOver ? this.now() : Date.now() / 1000;
    byId("own-at").value = fieldOf(at, this.page.settings);
    this.isTimed = false;
  }
  /** Has the moment go on, until the next line is begun. */
  goOn() {
    if (!this.isOver && !this.isTimed && !this.isWritten && !byId("own-id").value)
      this.putMoment();
  }
  /** @param {boolean} open */
  open(open) {
    document.body.classList.toggle("ics", open);
    byId("ics").hidden = !open;
    byId("ics-incident").value ||= this.page.shown?.data.title ?? "";
    this.tell(this.page.own.isStored);
    this.putMoment();
    this.draw();
    byId(open ? "ics-incident" : "ics-open").focus();
    keepDraft(open);
  }
  /** Fills it as it was, and opens it where it was open when the page was loaded again. */
  reopen() {
    const [way] = performance.getEntriesByType("navigation");
    if (!readDraft() || !way || Reflect.get(way, "type") !== "reload") return;
    const at = byId("own-at").value;
    this.open(true);
    // a line that was being written has its moment
    if (this.isWritten) {
      byId("own-at").value = at;
      this.isTimed = true;
    }
    byId(this.isWritten ? "own-text" : "ics-incident").focus();
  }
  /** @param {Line} line */
  remove(line) {
    this.tell(this.page.own.remove(line));
    this.draw();
  }
  /** Takes a line of the operator's own. */
  add() {
    const value = (/** @type {Input} */ id) => byId(id).value.trim();
    const at = momentIn(value("own-at"), this.page.settings), text = value("own-text");
    if (!Number.isFinite(at) || !text) {
      byId("own-told").textContent = "A line has a time and a message.";
      return byId(text ? "own-at" : "own-text").focus();
    }
    this.tell(this.page.own.add({ at, from: value("own-from"), to: value("own-to"),
      id: value("own-id"), text }));
    byId("own-id").value = byId("own-text").value = "";
    this.isTimed = false;
    this.goOn();
    keepDraft(true);
    this.draw();
    byId("own-text").focus();
  }
  /** @param {boolean} isKept whether the browser keeps what was changed */
  tell(isKept) {
    const { others, ofOtherDays } = this.page.own;
    byId("own-told").textContent = [isKept ? "" : keepsNo("lines"),
    others ? `Left out, more than a day off: ${count(others, "line")}.` : "",
    ofOtherDays ? `More than a day off, and shown: ${count(ofOtherDays, "line")}.` : ""]
      .filter(Boolean).join(" ");
  }
  /**
   * What another window of this net has changed.
   * @param {string | null} key
   */
  hear(key) {
    const { own, shown } = this.page;
    if (key !== own.key || !shown) return;
    own.open(shown.data.title, shown.data.lines, own.span);
    this.draw();
  }
  listen() {
    const on = (/** @type {string} */ id, /** @type {string} */ kind,
      /** @type {() => void} */ run) => byId(id).addEventListener(kind, run);
    on("ics-open", "click", () => this.open(true));
    on("ics-close", "click", () => this.open(false));
    on("ics-print", "click", () => print());
    on("ics-save", "click", this.save);
    on("own-add", "click", () => this.add());
    byId("own-text").addEventListener("keydown", ({ key }) => key === "Enter" && this.add());
    for (const id of ["ics-incident", "ics-net", "ics-operator"])
      on(id, "change", () => this.draw());
    on("ics", "input", () => keepDraft(true));
    on("own-at", "input", () => { this.isTimed = true; });
    setInterval(() => this.isOpen && this.goOn(), 1000);
    addEventListener("beforeprint", () => this.isOpen && sheetsShown.whole());
    addEventListener("storage", ({ key }) => this.hear(key));
    // the browser asks whether to leave
    addEventListener("beforeunload", event => {
      if (this.page.own.isAtRisk || this.page.marks?.isAtRisk) event.preventDefault();
    });
  }
}
