// @ts-check
// What the rows of a book's table say: what no column of numbers has becomes text when it is asked
// for; and places.

import { vectorOf } from "../geo/sphere.js";
import { textIn } from "./interning.js";
import { recordOf } from "./table-lines.js";
import { KINDS } from "./table-reader.js";
import { letterOf, said } from "../util/text.js";

/**
 * A number of a table, where there is one.
 * @param {string | undefined} text
 */
const numeric = text => text ? Number(text) : undefined;
/** What a row says beside its place, in numbers, each where it says so. */
const NUMBERS = { course: "course", knots: "speed_knots", metres: "altitude_m",
  windFrom: "wind_from", wind: "wind_mph", gust: "gust_mph", fahrenheit: "temperature_f",
  rainHour: "rain_hour", rainDay: "rain_day", rainMidnight: "rain_midnight",
  humidity: "humidity", pressure: "pressure_tenths", luminosity: "luminosity",
  range: "range_miles" };
/** @typedef {Partial<Record<keyof typeof NUMBERS, number>> & { says?: string }} Details */

/** @param {Record<string, string>} it @returns {Details} */
export function detailsOf(it) {
  /** @type {Details} */
  const details = {};
  for (const [name, column] of Object.entries(NUMBERS)) {
    const value = numeric(it[column]);
    if (value !== undefined) details[/** @type {keyof typeof NUMBERS} */ (name)] = value;
  }
  if (it.says) details.says = it.says;
  return details;
}
/**
 * What a symbol of a table is: its two letters.
 * @param {string} shown
 */
function symbolIn(shown) {
  const table = letterOf(shown);
  return { table: said(table), code: said(letterOf(shown.slice(table.length))) };
}

/**
 * What is known of a thing at a place.
 * @typedef {{ stamp: string, ambiguity: number, table: string, code: string, comment: string,
 *   compressed: boolean, north: number, east: number, first: number, last: number,
 *   receivers: string[], source: string, state: string, vector: number[] } & Details} Place
 */

/** @typedef {ArrayLike<number>} Picks numbers of rows */
/** The transmissions of a table: numbers of rows, in `order` by their first moments. */
export class Rows {
  /** @param {import("./table-reader.js").Read} read */
  constructor({ bytes, columns, names, things, lists, until }) {
    this.bytes = bytes;
    this.names = names;
    this.things = things;
    this.until = until;
    this.lists = lists.map(it => it === "" || it === "-" ? [] : it.split(","));
    this.kind = columns.kind;
    this.first = columns.first;
    this.last = columns.last;
    this.station = columns.station;
    this.thing = columns.thing;
    this.heard = columns.heard;
    this.via = columns.via;
    this.gate = columns.gate;
    this.begin = columns.begin;
    this.stop = columns.stop;
    this.killed = columns.killed;
    this.urgent = columns.urgent;
    this.north = columns.north;
    this.east = columns.east;
    this.same = columns.same;
    this.order = columns.order;
    this.length = columns.order.length;
    /** By how many seconds all who are in a list are known to be ahead; 0 where one isn't. */
    this.ahead = new Float64Array(lists.length);
    this.placeKills();
  }
  /**
   * Knows from now on by how much the clocks of receivers are ahead, those that are wrong.
   * @param {Map<string, number>} aheads
   */
  takeAheads(aheads) {
    this.lists.forEach((names, n) => {
      const all = names.map(it => aheads.get(it) || 0);
      this.ahead[n] = all.reduce((least, it) => Math.abs(it) < Math.abs(least) ? it : least,
        all[0] || 0);
    });
  }
  /**
   * When a row was last heard, by clocks that aren't known to be wrong.
   * @param {number} k
   */
  heardAt(k) {
    return this.last[k] - this.ahead[this.heard[k]];
  }
  /** A kill at 0, 0 lies where the thing was: its sender left the place out. */
  placeKills() {
    const { north, east, thing } = this, wanted = new Set(), last = new Map();
    for (let k = 0; k < this.length; k++)
      if (this.killed[k] && this.isUnfixed(k)) wanted.add(thing[k]);
    if (!wanted.size) return;
    for (const k of this.order) {
      if (!wanted.has(thing[k])) continue;
      const before = last.get(thing[k]);
      if (this.hasPlace(k)) last.set(thing[k], k);
      else if (this.killed[k] && before !== undefined)
        [north[k], east[k]] = [north[before], east[before]];
    }
  }
  /**
   * The numbers of those that were heard since a moment.
   * @param {number} moment
   */
  since(moment) {
    if (moment === -Infinity) return this.order;
    const { order, last } = this, picks = new Uint32Array(order.length);
    let n = 0;
    // a loop takes a third of what `filter` does
    for (let at = 0; at < order.length; at++) if (last[order[at]] >= moment) picks[n++] = order[at];
    return picks.slice(0, n);
  }
  /**
   * The later one of two rows, by their last moments; of equal ones the one that stands behind the
   * other in `order`. A number below 0 is no row.
   * @param {number} a @param {number} b
   */
  later(a, b) {
    const { first, last } = this;
    return a >= 0 && (last[a] - last[b] || first[a] - first[b] || a - b) > 0 ? a : b;
  }
  /**
   * Whether a row has a place. At 0, 0 is no fix.
   * @param {number} k
   */
  hasPlace(k) {
    return !Number.isNaN(this.north[k]) && !this.isUnfixed(k);
  }
  /** @param {number} k */
  isUnfixed(k) {
    return this.north[k] === 0 && this.east[k] === 0;
  }
  /** @param {number} k */
  line(k) {
    return textIn(this.bytes, this.begin[k], this.stop[k]);
  }
  /**
   * A row by the names of its columns.
   * @param {number} k
   */
  record(k) {
    return recordOf(this.names, this.line(k));
  }
  /**
   * The kind of a row, as the table names it.
   * @param {number} k
   */
  kindOf(k) {
    return KINDS[this.kind[k]] === "other" ? this.record(k).kind : KINDS[this.kind[k]];
  }
  /** @param {number} k @param {string} kind */
  is(k, kind) {
    return KINDS[this.kind[k]] === kind;
  }
  /**
   * All that a row says of a place.
   * @param {number} k
   * @returns {Place}
   */
  placeOf(k) {
    const it = this.record(k), north = this.north[k], east = this.east[k];
    return { stamp: it.stamp || "", ambiguity: Number(it.ambiguity || 0), ...symbolIn(it.symbol),
      comment: it.text || "", compressed: it.compressed === "yes", north, east,
      first: this.first[k], last: this.last[k], receivers: this.lists[this.heard[k]],
      source: nameIn(this.things[this.station[k]]), state: this.killed[k] ? "killed" : "live",
      vector: vectorOf(north, east), ...detailsOf(it) };
  }
}
export const kindIn = (/** @type {string} */ thing) => thing.slice(0, thing.indexOf(" "));
export const nameIn = (/** @type {string} */ thing) => thing.slice(thing.indexOf(" ") + 1);
