// @ts-check
// What the colours of marks and tracks mean: each thing's own, its age, its receiver or its kind.

/** @typedef {import("../net/things.js").Thing} Thing */
/** @typedef {{ colour: string, text: string }} Key a colour of the style, and its words */
/** @typedef {"own" | "age" | "receiver" | "kind"} Way */

/** Of more things than these, a colour for each says nothing. */
const OWN = 60;
/** So many receivers have a colour; the others share one. */
const RECEIVERS = 8;
const AGES = ["a0", "a1", "a2", "a3", "a4"];
const KINDS = ["station", "object", "item"];

/**
 * The way that is taken where the reader didn't choose one.
 * @param {number} things how many there are
 * @returns {Way}
 */
export const wayFor = things => things > OWN ? "age" : "own";

/** How many colours tracks have. */
export const TRACKS = 10;
/**
 * A colour of the track, by name, so that it is the same in each page.
 * @param {string} name
 */
export function colourOf(name) {
  let sum = 7;
  for (let k = 0; k < name.length; k++) sum = (sum * 31 + name.charCodeAt(k)) % 65521;
  return sum % TRACKS;
}

/** Colours by one of the ways; each is a name of the style, without its dashes. */
export class Colouring {
  /**
   * @param {Way} way
   * @param {{ receivers?: { name: string, heard: number }[], silent?: number }} net who heard
   *   things, and after how many seconds a station is silent
   */
  constructor(way, { receivers = [], silent = 1800 } = {}) {
    this.way = way;
    /** Ages in seconds, each the end of one colour. */
    this.ends = [silent / 6, silent / 2, silent, 2 * silent];
    const most = [...receivers].sort((a, b) => b.heard - a.heard).slice(0, RECEIVERS);
    this.names = most.map(it => it.name);
    this.isMore = receivers.length > RECEIVERS;
  }
  /**
   * The colour of a thing that was heard last so many seconds ago.
   * @param {Thing} thing
   * @param {number} age
   * @returns {string}
   */
  of(thing, age) {
    if (this.way === "age") return AGES[this.ageOf(age)];
    if (this.way === "kind") return thing.kind;
    return this.way === "receiver" ? this.receiverOf(thing.by) : `t${colourOf(thing.key)}`;
  }
  /** @param {number} age */
  ageOf(age) {
    const at = this.ends.findIndex(end => age < end);
    return at < 0 ? this.ends.length : at;
  }
  /** @param {string[]} by */
  receiverOf(by) {
    if (by.length > 1) return "ink";
    const at = this.names.indexOf(by[0]);
    return at < 0 ? "soft" : `t${at}`;
  }
  /**
   * What the colours mean.
   * @returns {Key[]}
   */
  get legend() {
    if (this.way === "kind") return KINDS.map(it => ({ colour: it, text: it }));
    if (this.way === "receiver") {
      const keys = this.names.map((name, n) => ({ colour: `t${n}`, text: name }));
      if (this.names.length > 1) keys.push({ colour: "ink", text: "several" });
      return this.isMore ? [...keys, { colour: "soft", text: "another" }] : keys;
    }
    if (this.way === "own") return [];
    const minutes = this.ends.map(it => Math.round(it / 60));
    return AGES.map((colour, n) => ({ colour, text: n < minutes.length
      ? `heard within ${minutes[n]} min` : "before that" }));
  }
}
