// @ts-check
// The operator's own lines of the communications log, such as voice traffic, and those of other
// desks. The browser keeps them by the title of the net, where it can. What it keeps may be
// damaged, and then counts as nothing.

/** @typedef {import("../net/log-entries.js").Line} Line */
/** @typedef {{ lines: Line[], gone: string[] }} Kept lines, and the keys of those taken away */

const NAMES = /** @type {("from" | "to" | "id" | "text")[]} */ (["from", "to", "id", "text"]);
/** The last moment that a date can have, in seconds from 1970; the first is as far before. */
const LAST = 8.64e12;
/** What lies so many seconds before a net, or after it, is of another one of its title. */
const FAR = 86400;
/**
 * From when to when a net was heard, in seconds.
 * @typedef {{ begin: number, end: number }} Span
 */
/** @type {Span} */
const ALWAYS = { begin: -Infinity, end: Infinity };
const keyOf = (/** @type {Line} */ it) => JSON.stringify([it.at, ...NAMES.map(name => it[name])]);

/**
 * The lines among values of any form.
 * @param {unknown} values
 * @returns {Line[]}
 */
export function linesIn(values) {
  if (!Array.isArray(values)) return [];
  return values.filter(it => Math.abs(Number.isFinite(it?.at) ? it.at : NaN) <= LAST &&
    NAMES.every(name =>
      typeof it[name] === "string" && it[name].length <= 2000))
    .map(it => ({ at: it.at, from: it.from, to: it.to, id: it.id, text: it.text,
      ...typeof it.desk === "string" && it.desk && { desk: it.desk.slice(0, DESK) } }));
}
/** So many letters of a desk's name are kept, and what a page is called that says none. */
const DESK = 80, PAGE = "this page";
/**
 * Lines with the name of a desk, where they have none.
 * @param {Line[]} lines @param {string} desk
 */
const ofDesk = (lines, desk) => lines.map(it => ({ ...it, desk: it.desk || desk }));
/** This browser's store, where it has one. */
export function storeOf() {
  try {
    return globalThis.localStorage || null;
  } catch {
    return null; // it is forbidden here
  }
}

/**
 * The lines of all desks, those that one of them took away, and what adds to both.
 * @typedef {{ desk: string, entries: { size: number }, lines: Line[], linesGone: Line[],
 *   isStored: boolean,
 *   addLine: (line: Line) => unknown,
 *   removeLines: (lines: Line[]) => void }} Shared
 */

/** The lines of a net. */
export class OwnLines {
  /** @param {Pick<Storage, "getItem" | "setItem"> | null} store */
  constructor(store = storeOf()) {
    this.store = store;
    this.key = "";
    /** Whether the browser keeps what is kept here. */
    this.isStored = true;
    /** @type {Line[]} those that stand in the page itself */
    this.given = [];
    /** @type {Kept} */
    this.kept = { lines: [], gone: [] };
    /** @type {Line[]} those of pages that were dropped here, and taken */
    this.brought = [];
    /** @type {Map<string, Line[]>} those of pages that were dropped here, to be asked for */
    this.offered = new Map();
    this.span = ALWAYS;
    /** @type {Set<string>} keys of those that stand in the page, or were added in it */
    this.here = new Set();
    /** @type {Shared | null} those of all desks of a net that is served */
    this.shared = null;
    /** All lines as they were made of these parts, none of which is changed in its place. */
    this.made = { of: /** @type {unknown[]} */ ([]), all: /** @type {Line[]} */ ([]) };
  }
  /** Those of this net, by time. */
  get lines() {
    const { begin, end } = this.span, { here } = this;
    return this.all.filter(it =>
      it.at >= begin - FAR && it.at <= end + FAR || here.has(keyOf(it)));
  }
  /** Whether lines are in this page alone, and gone where it is closed or loaded again. */
  get isAtRisk() {
    return !this.isStored && this.kept.lines.length > 0;
  }
  /** How many are left out, since they lie far off. */
  get others() {
    return this.all.length - this.lines.length;
  }
  /** How many of those that are here are of other days than the net. */
  get ofOtherDays() {
    const { begin, end } = this.span;
    return this.lines.filter(it => it.at < begin - FAR || it.at > end + FAR).length;
  }
  /** The lines as a page carries them to others, each with its desk, where that has a name. */
  get carried() {
    const own = this.shared?.desk ?? "";
    return this.lines.map(({ desk, ...it }) =>
      ({ ...it, ...desk && desk !== PAGE ? { desk } : !desk && own && { desk: own } }));
  }
  /** How many lines each desk has, one's own first, under an empty name. */
  get desks() {
    const counts = new Map();
    for (const { desk = "" } of this.lines) counts.set(desk, (counts.get(desk) || 0) + 1);
    return [...counts].sort(([a], [b]) => a < b ? -1 : 1);
  }
  /** All of them, by time. */
  get all() {
    const of = [this.given, this.kept, this.shared, this.shared?.entries.size];
    if (of.some((it, n) => it !== this.made.of[n])) this.made = { of, all: this.united() };
    return this.made.all;
  }
  /** The lines of the page, of this browser and of all desks, each once. */
  united() {
    const { lines: shared, linesGone } = this.shared || { lines: [], linesGone: [] };
    const gone = new Set([...this.kept.gone, ...linesGone.map(keyOf)]);
    // what a desk adds again is there again, also where it was taken away before
    for (const it of shared) gone.delete(keyOf(it));
    const own = this.shared?.desk ?? "";
    const others = shared.map(it => it.desk === own ? { ...it, desk: "" } : it);
    const all = new Map([...this.given, ...this.kept.lines, ...others].map(it => [keyOf(it), it]));
    return [...all].filter(([key]) => !gone.has(key)).map(it => it[1]).sort((a, b) => a.at - b.at);
  }
  /**
   * Opens the lines of a net: those in its page, and those that the browser keeps. A net that gets
   * another title takes its lines along, where there are none of that title.
   * @param {string} title
   * @param {unknown} given
   * @param {Span} span
   */
  open(title, given = [], span = ALWAYS) {
    const key = `aprsbook lines: ${title}`, isSame = this.key === key;
    const before = this.key && !isSame ? this.lines : [];
    this.key = key;
    this.span = span;
    this.given = ofDesk(linesIn(given), PAGE);
    for (const it of this.given) this.here.add(keyOf(it));
    // what the browser doesn't keep stays in this page
    this.kept = isSame && !this.isStored ? this.withStored() : this.read();
    if (before.length) this.addAll(this.lines.length ? this.brought : before);
  }
  /**
   * Has the lines of a page that was dropped here asked for.
   * @param {string} name of the page
   * @param {Line[]} lines
   */
  offer(name, lines) {
    this.offered.set(name, ofDesk(lines, name));
  }
  /**
   * Takes the lines that a page offers, or leaves them; says whether the browser keeps them.
   * @param {string} name
   * @param {boolean} isTaken
   */
  answer(name, isTaken) {
    const lines = this.offered.get(name) || [];
    this.offered.delete(name);
    if (!isTaken) return this.isStored;
    this.brought = this.brought.concat(lines);
    return this.addAll(lines);
  }
  /** @returns {Kept} */
  read() {
    try {
      const { lines, gone } = JSON.parse(this.store?.getItem(this.key) || "{}");
      return { lines: linesIn(lines),
        gone: Array.isArray(gone) ? gone.filter(it => typeof it === "string") : [] };
    } catch {
      return { lines: [], gone: [] };
    }
  }
  /**
   * What is kept, as another window of this net left it.
   * @returns {Kept}
   */
  withStored() {
    const stored = this.read(), { lines, gone } = this.kept;
    const keys = new Set([...stored.lines.map(keyOf), ...stored.gone]);
    return { lines: [...stored.lines, ...lines.filter(it => !keys.has(keyOf(it)))],
      gone: [...new Set([...stored.gone, ...gone])] };
  }
  /** @param {Line[]} lines */
  add(...lines) {
    if (!this.shared) return this.addAll(lines);
    for (const it of lines) {
      this.here.add(keyOf(it));
      this.shared.addLine(it);
    }
    return this.shared.isStored;
  }
  /**
   * Keeps lines, be they many; says whether the browser does.
   * @param {Line[]} lines
   */
  addAll(lines) {
    if (!lines.length) return true;
    const keys = new Set(lines.map(keyOf));
    for (const it of keys) this.here.add(it);
    return this.change(({ lines: before, gone }) =>
      ({ lines: [...before.filter(it => !keys.has(keyOf(it))), ...lines],
        gone: gone.filter(it => !keys.has(it)) }));
  }
  /** @param {Line} line */
  remove(line) {
    return this.removeAll([line]);
  }
  /**
   * Takes lines away, be they many; says whether the browser keeps that.
   * @param {Line[]} removed
   */
  removeAll(removed) {
    const keys = new Set(removed.map(keyOf));
    this.shared?.removeLines(removed);
    this.brought = this.brought.filter(it => !keys.has(keyOf(it)));
    return this.change(({ lines, gone }) =>
      ({ lines: lines.filter(it => !keys.has(keyOf(it))),
        gone: [...new Set([...gone, ...keys])] }));
  }
  /**
   * Takes all lines of a desk away.
   * @param {string} desk
   */
  removeDesk(desk) {
    return this.removeAll(this.lines.filter(it => (it.desk || "") === desk));
  }
  /**
   * Changes what is kept; says whether the browser keeps it.
   * @param {(kept: Kept) => Kept} change
   */
  change(change) {
    this.kept = change(this.withStored());
    this.isStored = false;
    try {
      this.store?.setItem(this.key, JSON.stringify(this.kept));
      this.isStored = this.store !== null;
    } catch {
      // it is full, or forbidden
    }
    return this.isStored;
  }
}
