// @ts-check
// What the desks of a net write down for one another: voice traffic, tactical names, notes, what of
// the alarms is dealt with, settings. Each is an entry of a journal. None is changed or lost, and
// journals are united as sets: a desk may be away for hours, and what is sent twice is there once.

/**
 * An entry: its id, whose it is, when it was made in milliseconds, of what kind, and what it says.
 * @typedef {{ id: string, desk: string, at: number, kind: string } &
 *   Record<string, string | number>} Entry
 */
/** @typedef {import("../net/log-entries.js").Line} Line */
/**
 * Asks the server to take entries of a desk; how many of them it refuses, or null where it is away.
 * @typedef {(desk: string, text: string) => Promise<number | null>} Send
 */
/** What an entry of a kind says, each a text. */
export const KINDS = { line: ["time", "from", "to", "number", "text"], gone: ["of"],
  name: ["call", "name"], dealt: ["alarm", "note"], note: ["call", "text"],
  setting: ["name", "value"] };
/** So many entries are sent at once. */
const SOME = 100;

/**
 * The one spelling of an entry: ASCII, names in order.
 * @param {Entry} entry
 */
export const spelling = entry => JSON.stringify(Object.fromEntries(Object.entries(entry)
  .sort(([a], [b]) => a < b ? -1 : 1)))
  .replace(/[\x7f-\uffff]/g, it => "\\u" + it.charCodeAt(0).toString(16).padStart(4, "0"));
/** Half of a letter in UTF-16, as a text may have that was cut, and no server takes. */
const HALF = /\p{Surrogate}/gu;
/**
 * What an entry says, with a mark in place of each half of a letter.
 * @param {Record<string, string>} says
 * @returns {Record<string, string>}
 */
const wholeLetters = says => Object.fromEntries(Object.entries(says)
  .map(([name, it]) => [name, it.replace(HALF, "\ufffd")]));
/** An id that nobody else makes. */
const newId = () => [...crypto.getRandomValues(new Uint8Array(16))]
  .map(it => it.toString(16).padStart(2, "0")).join("");
/** @param {string} text @returns {Entry | null} */
function entryIn(text) {
  try {
    const it = JSON.parse(text), says = KINDS[/** @type {keyof typeof KINDS} */ (it?.kind)];
    const isWhole = says && typeof it.id === "string" && typeof it.desk === "string" &&
      typeof it.at === "number" && says.every(name => typeof it[name] === "string");
    return isWhole ? it : null;
  } catch {
    return null;
  }
}
/**
 * The line of voice traffic that an entry says.
 * @param {Entry} it
 * @returns {Line}
 */
export const lineOf = it => ({ at: Number(it.time) / 1000, from: String(it.from),
  to: String(it.to), id: String(it.number), text: String(it.text), desk: it.desk });

/** All entries that this desk knows, and those of its own that the server has yet to take. */
export class Journal {
  /**
   * @param {string} desk
   * @param {Send} send
   * @param {Pick<Storage, "getItem" | "setItem"> | null} store keeps what waits, by the key
   */
  constructor(desk, send, store, now = Date.now, key = `aprsbook desk: ${desk}`) {
    this.desk = desk;
    this.send = send;
    this.store = store;
    this.now = now;
    this.key = key;
    /** @type {Map<string, Entry>} by their spelling, so that none is there twice */
    this.entries = new Map();
    /** @type {Set<string>} spellings of those that wait */
    this.waiting = new Set();
    this.isSending = false;
    /** How many the server has refused, and whether the browser keeps what waits. */
    this.refused = 0;
    this.isStored = true;
    /** Is called where something is new, be it of this desk or of another. */
    this.onChange = () => {};
    /** The marks by alarms, as they were at so many entries: none is ever changed. */
    this.dealt = { at: -1, by: /** @type {Map<string, Entry[]>} */ (new Map()) };
    this.unite();
  }
  read() {
    try {
      return this.store?.getItem(this.key) || "";
    } catch {
      return "";
    }
  }
  keep() {
    try {
      // what another window of this desk has added stays
      const theirs = this.read().split("\n").filter(it => it && !this.entries.has(it));
      this.store?.setItem(this.key, [...theirs, ...this.waiting].join("\n"));
      this.isStored = this.store !== null;
    } catch {
      this.isStored = false; // it is full, or forbidden: the page has them until it is closed
    }
  }
  /** Whether entries are in this page alone, and gone where it is closed or loaded again. */
  get isAtRisk() {
    return !this.isStored && this.waiting.size > 0;
  }
  /**
   * Takes an entry; says whether it is new.
   * @param {string} text
   */
  put(text) {
    const it = this.entries.has(text) ? null : entryIn(text);
    if (it) this.entries.set(text, it);
    return it !== null;
  }
  /**
   * Takes what a journal says; says whether something of it is new.
   * @param {string} text
   */
  hear(text) {
    let isNew = false, isLess = false;
    for (const it of text.split("\n")) {
      isNew = this.put(it) || isNew;
      isLess = this.waiting.delete(it) || isLess;
    }
    if (isLess) this.keep();
    if (isNew) this.onChange();
    return isNew;
  }
  /**
   * Takes what a page carries, and what another window keeps; the store goes on keeping what it
   * keeps, for pages that don't carry that.
   * @param {string} carried
   */
  unite(carried = "") {
    const { entries } = this, { size } = entries;
    for (const it of this.read().split("\n"))
      if (this.put(it) || entries.has(it)) this.waiting.add(it);
    for (const it of carried.split("\n")) this.put(it);
    if (entries.size > size) this.onChange();
  }
  /**
   * Takes along what another journal has since a moment in seconds, where this one has nothing.
   * @param {Journal} other @param {number} begin
   */
  takeAlong({ entries }, begin) {
    if (this.entries.size) return;
    for (const [text, { at }] of entries)
      if (at >= begin * 1000 && this.put(text)) this.waiting.add(text);
    if (this.waiting.size) this.keep();
  }
  /**
   * Adds an entry of this desk; its id.
   * @param {keyof typeof KINDS} kind
   * @param {Record<string, string>} says
   */
  add(kind, says) {
    return this.addAll(kind, [says])[0];
  }
  /**
   * Adds entries of this desk, be they many; their ids.
   * @param {keyof typeof KINDS} kind
   * @param {Record<string, string>[]} all what each of them says
   */
  addAll(kind, all) {
    const added = all.map(says =>
      ({ ...wholeLetters(says), kind, desk: this.desk, at: this.now(), id: newId() }));
    for (const text of added.map(spelling)) {
      this.put(text);
      this.waiting.add(text);
    }
    if (!added.length) return [];
    this.keep();
    this.onChange();
    this.sendAll();
    return added.map(it => it.id);
  }
  /**
   * Takes an entry away, for all desks.
   * @param {string} id
   */
  remove(id) {
    return this.add("gone", { of: id });
  }
  /** Sends what waits; where that fails it is sent later. */
  async sendAll() {
    if (this.isSending || !this.waiting.size) return;
    this.isSending = true;
    const some = [...this.waiting].slice(0, SOME);
    const refused = await this.send(this.desk, some.map(it => it + "\n").join(""))
      .catch(() => null);
    this.isSending = false;
    if (refused === null) return;
    this.refused += refused;
    for (const it of some) this.waiting.delete(it);
    this.keep();
    this.onChange();
    await this.sendAll();
  }
  /**
   * The entries of a kind that nobody took away, by time; of one moment in one order at all desks.
   * @param {keyof typeof KINDS} kind
   */
  ofKind(kind) {
    const all = [...this.entries], gone = new Set();
    for (const [, it] of all) if (it.kind === "gone") gone.add(it.of);
    return all.filter(([, it]) => it.kind === kind && !gone.has(it.id))
      .sort(([a, { at }], [b, { at: other }]) => at - other || (a < b ? -1 : 1))
      .map(([, it]) => it);
  }
  /** The lines of voice traffic. */
  get lines() {
    return this.ofKind("line").map(lineOf);
  }
  /** The lines that somebody took away. */
  get linesGone() {
    const left = new Set(this.ofKind("line"));
    return [...this.entries.values()].filter(it => it.kind === "line" && !left.has(it)).map(lineOf);
  }
  /** @param {Line} line */
  addLine(line) {
    return this.add("line", { time: String(Math.round(line.at * 1000)), from: line.from,
      to: line.to, number: line.id, text: line.text });
  }
  /**
   * Takes lines away, whoever added them, as often as they are there.
   * @param {Line[]} lines
   */
  removeLines(lines) {
    const keyOf = (/** @type {Line} */ it) =>
      JSON.stringify([it.at, it.from, it.to, it.id, it.text]);
    const keys = new Set(lines.map(keyOf));
    this.addAll("gone", this.ofKind("line").filter(it => keys.has(keyOf(lineOf(it))))
      .map(it => ({ of: it.id })));
  }
  /**
   * What the last entry of a kind says of each matter.
   * @param {"name" | "setting"} kind
   * @param {string} of
   * @param {string} value
   */
  last(kind, of, value) {
    return new Map(this.ofKind(kind).map(it => [String(it[of]), String(it[value])]));
  }
  /** The tactical names by calls. */
  get names() {
    return new Map([...this.last("name", "call", "name")].filter(([, name]) => name));
  }
  /** What desks have set for the net, by the names of settings. */
  get settings() {
    return this.last("setting", "name", "value");
  }
  /**
   * Who deals with an alarm, first who said so first.
   * @param {string} alarm
   */
  dealtWith(alarm) {
    return this.marks.get(alarm) || [];
  }
  /** Who deals with each alarm. */
  get marks() {
    const { dealt, entries: { size } } = this;
    if (dealt.at === size) return dealt.by;
    const by = /** @type {Map<string, Entry[]>} */ (new Map());
    for (const it of this.ofKind("dealt")) {
      const alarm = String(it.alarm);
      by.set(alarm, [...by.get(alarm) || [], it]);
    }
    this.dealt = { at: size, by };
    return by;
  }
  /**
   * The notes to a station.
   * @param {string} call
   */
  notesOf(call) {
    return this.ofKind("note").filter(it => it.call === call);
  }
}
