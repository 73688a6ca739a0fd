// @ts-check
// Tables that build their rows as they come into view, sort by their heads, and take one stop of
// the tab key: arrow keys go from row to row.

import { SETS } from "./dealt-mark.js";
import { choose, chosen, make, makeButton, momentOf } from "../util/dom.js";
import { later } from "../util/task-queue.js";
import { atOnce } from "../util/tasks.js";
import { namesText } from "../util/text.js";
import { age } from "../util/time.js";

/**
 * So many rows are more than a box shows. Of a long list the first few come at once, and the rest
 * when these are painted; until then rows of the list before stay in their places.
 */
const PART = 26, FIRST = 10;

/**
 * A column: its title, whether it has numbers, and the value by which it sorts, if it does.
 * @template T
 * @typedef {{ title: string | Node, number?: boolean, value?: (it: T) => string | number }} Column
 */
/**
 * The list that stands in each box, whose place another one takes.
 * @type {WeakMap<HTMLElement, { built: number, scrolled: boolean }>}
 */
const standing = new WeakMap();

/**
 * A table of items.
 * @template T
 */
export class List {
  /**
   * `row` makes a row of an item, and `keyOf` says by which key it is marked, and known again in
   * another drawing. It stands in `box`, which scrolls.
   * @param {HTMLElement} box
   * @param {{ id: string, caption: string, columns: Column<T>[],
   *   row: (it: T) => HTMLTableRowElement, none?: string, keyOf?: (it: T) => string }} of
   */
  constructor(box, { id, caption, columns, row, none = "none", keyOf }) {
    this.box = box;
    /** What is said on paper of rows that aren't there. */
    this.rest = make("p", { className: "rest" });
    this.id = id;
    this.columns = columns;
    this.row = row;
    this.none = none;
    this.keyOf = keyOf;
    /** @type {T[]} */
    this.items = [];
    /** @type {T[] | null} */
    this.given = null;
    const { built, scrolled } = standing.get(box) || { built: 0, scrolled: false };
    this.built = built;
    this.scrolled = scrolled;
    standing.set(box, this);
    /**
     * The row that gets the keyboard once it is built, by its key, and which of its buttons.
     * @type {{ key: string, button: number } | null}
     */
    this.sought = null;
    this.heads = columns.map((it, n) => this.headOf(it, n));
    this.body = make("tbody");
    this.table = make("table", { id, className: "sorted" },
      make("caption", { textContent: caption }),
      make("thead", {}, make("tr", {}, ...this.heads)), this.body);
    const [, column, way] = /^(\d+)([ad])$/.exec(chosen.get(id) || "") || [];
    this.order = columns[Number(column)]?.value ? { column: +column, down: way === "d" } : null;
    // in place of that of a list before
    box.onscroll = () => {
      this.scrolled = true;
      this.fill();
    };
    this.body.addEventListener("keydown", event => this.step(event));
    this.body.addEventListener("focusin", event =>
      this.rove(/** @type {HTMLElement} */ (event.target)));
    // before the button draws the list anew
    this.body.addEventListener("click", event =>
      this.goOn(/** @type {Element} */ (event.target)), true);
  }
  /** @param {Column<T>} column @param {number} n */
  headOf({ title, number, value }, n) {
    const isText = typeof title === "string";
    const onclick = () => this.turn(n);
    return make("th", { scope: "col", className: number ? "num" : "",
      data: isText ? { column: title } : {} }, value && isText
      ? makeButton(title, onclick) : title);
  }
  /**
   * Sorts by a column; once more, the other way round.
   * @param {number} column
   */
  turn(column) {
    const down = this.order?.column === column ? !this.order.down : !!this.columns[column].number;
    this.order = { column, down };
    choose(this.id, column + (down ? "d" : "a"));
    this.show(this.given || []);
  }
  /**
   * Shows items from the first one on; or, where it `stays` as it is, such as in another drawing,
   * what is in view stays there, and the keyboard in its row.
   * @param {T[]} items
   */
  show(items, stays = this.given === null) {
    const many = stays && this.scrolled ? Math.max(PART, this.built) : PART;
    const isNew = this.table.parentNode !== this.box;
    this.sought = stays ? this.keyboard : null;
    this.given = items;
    this.items = this.order ? this.sorted(items) : items;
    this.heads.forEach((head, n) => {
      if (this.order?.column === n)
        head.setAttribute("aria-sort", this.order.down ? "descending" : "ascending");
      else head.removeAttribute("aria-sort");
    });
    this.built = 0;
    this.table.setAttribute("aria-rowcount", String(items.length + 1));
    this.rest.textContent = "";
    if (!items.length) this.box.replaceChildren(make("p", { textContent: this.none }));
    else if (isNew) this.box.replaceChildren(this.table, this.rest);
    if (this.scrolled && !stays) this.box.scrollTop = 0;
    this.scrolled &&= stays;
    const long = items.length > 10 * PART;
    this.build(long && !(isNew && stays) ? FIRST : many);
    if (long) later(this.id, this.begun(many));
    else atOnce(this.begun(many));
  }
  /**
   * Builds so many rows, which fill a box or reach what is in view, and takes away those of an
   * earlier list.
   * @param {number} many
   * @returns {import("../util/tasks.js").Steps<void>}
   */
  *begun(many) {
    for (const end = Math.min(many, this.items.length); this.built < end;) {
      this.build(Math.min(PART, end - this.built));
      yield;
    }
    if (this.sought) this.seek(this.sought.key);
    while (this.body.children.length > this.built) this.body.lastElementChild?.remove();
  }
  /** The row that has the keyboard, by its key, and which of its buttons; or null. */
  get keyboard() {
    const { activeElement } = document;
    const row = this.body.contains(activeElement) ? activeElement?.closest("tr") : null;
    const key = row?.dataset.key;
    return row && key !== undefined
      ? { key, button: buttonsIn(row).findIndex(it => it === activeElement) } : null;
  }
  /**
   * Where an entry is dealt with, which may send it to the list's end, the keyboard goes on to the
   * next one that wants that, or else to the one before it, or to the list.
   * @param {Element} button
   */
  goOn(button) {
    const all = [...this.body.querySelectorAll(`.${SETS}`)], at = all.indexOf(button);
    if (at < 0 || button !== document.activeElement) return;
    this.table.tabIndex = -1;
    /** @type {HTMLElement} */ (all[at + 1] || all[at - 1] || this.table)
      .focus({ preventScroll: true });
  }
  /**
   * Gives the keyboard back to the row that had it, unless it went on.
   * @param {HTMLTableRowElement[]} rows new ones
   */
  refocus(rows) {
    const { sought } = this, { activeElement } = document;
    const row = sought && rows.find(it => it.dataset.key === sought.key);
    if (!row) return;
    this.sought = null;
    if (activeElement !== document.body && !this.body.contains(activeElement)) return;
    const buttons = buttonsIn(row);
    (buttons[sought.button] || buttons[0])?.focus({ preventScroll: true });
  }
  /** @param {T[]} items */
  sorted(items) {
    const { column, down } = this.order || { column: 0, down: false }, way = down ? -1 : 1;
    const value = this.columns[column].value || (() => 0);
    return items.map((it, n) => ({ by: value(it), n, it }))
      .sort((a, b) => compared(a.by, b.by) * way || a.n - b.n).map(({ it }) => it);
  }
  /**
   * Builds so many rows more, in the places of those of an earlier list.
   * @param {number} n
   */
  build(n) {
    if (n <= 0) return;
    const rows = this.items.slice(this.built, this.built + n).map((item, k) => {
      const row = this.row(item);
      row.setAttribute("aria-rowindex", String(this.built + k + 2));
      if (this.keyOf) row.dataset.key = this.keyOf(item);
      return row;
    });
    rows.forEach(press);
    const old = [...this.body.children].slice(this.built, this.built + n);
    rows.forEach((row, k) => old[k] ? old[k].replaceWith(row) : this.body.append(row));
    if (!this.built) this.rove(picksIn(this.body)[0]);
    else for (const it of rows) for (const pick of picksIn(it)) pick.tabIndex = -1;
    this.built += rows.length;
    this.refocus(rows);
    if (this.built === this.items.length) this.rest.textContent = "";
  }
  /** Builds on where the end of what is built comes near. */
  fill() {
    while (this.built < this.items.length &&
      this.box.scrollTop + this.box.clientHeight > this.box.scrollHeight - 600) this.build(PART);
  }
  /**
   * Marks the row of a key, and no other; it is brought into view in its box where `isSought`.
   * @param {string | null} key
   */
  mark(key, isSought = false) {
    if (isSought && key) this.seek(key);
    for (const row of this.body.rows) {
      const isIt = row.dataset.key === key && key !== null;
      row.classList.toggle("picked", isIt);
      press(row);
      if (isIt && isSought) this.box.scrollTop = row.offsetTop - this.box.clientHeight / 3;
    }
  }
  /**
   * What can be picked in the row of a key, where that is built.
   * @param {string} key
   */
  pickOf(key) {
    const row = [...this.body.rows].find(it => it.dataset.key === key);
    return row && picksIn(row)[0];
  }
  /**
   * Builds on until the row of a key is there.
   * @param {string} key
   */
  seek(key) {
    const at = this.items.findIndex(it => this.keyOf?.(it) === key);
    if (at >= this.built && at < 5000) this.build(at + 1 - this.built);
  }
  /** Builds all, for paper; where that is too much, it says so. */
  whole(most = 5000) {
    this.build(Math.max(0, Math.min(this.items.length, most) - this.built));
    const left = this.items.length - this.built;
    this.rest.textContent = left > 0 ? `and ${left.toLocaleString("en")} more` : "";
  }
  /**
   * The one row that the tab key reaches.
   * @param {HTMLElement | undefined} pick
   */
  rove(pick) {
    if (!pick?.classList.contains("pick")) return;
    for (const it of picksIn(this.body)) it.tabIndex = it === pick ? 0 : -1;
  }
  /** @param {KeyboardEvent} event */
  step(event) {
    const by = STEPS[event.key], pick = /** @type {HTMLElement} */ (event.target);
    // a key that is held down deals with one entry alone
    if (event.repeat && pick.classList.contains(SETS)) event.preventDefault();
    if (!by || !pick.classList.contains("pick")) return;
    event.preventDefault();
    if (by === Infinity) this.whole();
    const picks = picksIn(this.body);
    const at = Math.max(0, Math.min(picks.length - 1, picks.indexOf(pick) + by));
    picks[at].focus();
    this.fill();
  }
}
/**
 * By how many rows a key goes on.
 * @type {Record<string, number>}
 */
const STEPS = { ArrowDown: 1, ArrowUp: -1, Home: -Infinity, End: Infinity };
/**
 * What of each row can be picked.
 * @param {HTMLElement} node
 */
const picksIn = node =>
  [.../** @type {NodeListOf<HTMLElement>} */ (node.querySelectorAll(".pick"))];
/** @param {HTMLElement} row */
const buttonsIn = row => [...row.querySelectorAll("button")];
/**
 * Says of what can be picked in a row whether it is.
 * @param {HTMLTableRowElement} row
 */
function press(row) {
  for (const it of picksIn(row))
    it.setAttribute("aria-pressed", String(row.classList.contains("picked")));
}
const collator = new Intl.Collator("en", { numeric: true });
/**
 * The order of two values of a column: numbers, or texts with numbers in them.
 * @param {string | number} a
 * @param {string | number} b
 */
const compared = (a, b) => typeof a === "number" && typeof b === "number" ? a - b
  : collator.compare(String(a), String(b));

/**
 * What stands beside what is new since the reader looked.
 * @param {boolean} isNew
 */
export const newMark = isNew =>
  isNew ? [" ", make("small", { className: "fresh", textContent: "new" })] : [];
/**
 * What leads to the place of a thing of a kind.
 * @param {Node | string} shown @param {() => unknown} onclick
 */
export const pickButton = (shown, onclick, kind = "") => make("button",
  { type: "button", className: `pick ${kind}`, title: "show on the map", onclick }, shown);
/** @param {string} className @param {import("../util/dom.js").Inside[]} inside */
export const cell = (className, ...inside) => make("td", { className }, ...inside);
/**
 * What a row is about.
 * @param {import("../util/dom.js").Inside[]} inside
 */
export const rowHead = (...inside) => make("th", { scope: "row" }, ...inside);
/**
 * Who heard something, all of them where there are few.
 * @param {string[]} names
 */
export function heardCell(names) {
  const text = namesText(names), all = names.join(", ");
  return make("td", { className: "by", textContent: text, title: text === all ? "" : all });
}
/** @param {number} n nothing is written of 0 */
export const number = n => cell("num", n === 0 ? "" : n.toLocaleString("en"));
/** @param {number} seconds @param {import("../util/time.js").Clock} clock */
export const timeCell = (seconds, clock) => cell("num time", momentOf(seconds, clock));
/** @param {number} seconds @param {{ now: number }} view */
export const ageCell = (seconds, view) => make("td", { className: "num age", data: { v: seconds },
  textContent: age(view.now - seconds) });
