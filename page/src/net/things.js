// @ts-check
// Stations, objects and items: what each said last, where it was, and since when it is in need.

import { vectorOf } from "../geo/sphere.js";
import { kindIn, nameIn } from "./rows.js";
import { TELLING, URGENT } from "./table-reader.js";
import { each } from "../util/tasks.js";
import { byLetters, said } from "../util/text.js";

/** @typedef {import("./rows.js").Rows} Rows */
/** @typedef {import("./rows.js").Place} Place */
/** @typedef {import("./rows.js").Picks} Picks */

/** A station, an object or an item; its places are the numbers of rows, and made when asked for. */
export class Thing {
  /** @param {Rows} rows @param {string} key */
  constructor(rows, key) {
    this.rows = rows;
    this.kind = kindIn(key);
    this.name = nameIn(key);
    this.key = key;
    this.label = said(this.name) || "(no name)";
    this.first = Infinity;
    /** When it was last heard, by clocks that aren't known to be wrong. */
    this.heardAt = -Infinity;
    this.sent = 0;
    /** How many frames of others it passed on. */
    this.passed = 0;
    /** Since when it is in need, or was last, without a break. */
    this.needSince = NaN;
    // numbers of rows, -1 for none
    this.lastHeard = -1;
    this.lastStatus = -1;
    this.lastPlace = -1;
    this.lastUrgent = -1;
    /** Of each kind that says whether it is in need. */
    this.lastTelling = TELLING.map(() => -1);
    this.lastWeather = -1;
    this.lastTelemetry = -1;
    /** How many of its rows are at 0, 0. */
    this.unfixed = 0;
    /** @type {number[]} */
    this.placedBy = [];
    /** @type {Map<number, Place>} */
    this.made = new Map();
    /** @type {Float64Array | null} */
    this.line = null;
  }
  /** @param {number} k */
  hear(k) {
    this.sent++;
    this.notice(k);
  }
  /**
   * Takes a frame of another station that it passed on.
   * @param {number} k
   */
  pass(k) {
    this.passed++;
    this.notice(k);
  }
  /** @param {number} k */
  notice(k) {
    const { rows } = this;
    this.first = Math.min(this.first, rows.first[k]);
    this.heardAt = Math.max(this.heardAt, rows.heardAt(k));
    this.lastHeard = rows.later(this.lastHeard, k);
  }
  get last() {
    return this.lastHeard < 0 ? -Infinity : this.rows.last[this.lastHeard];
  }
  /** Who heard it last. */
  get by() {
    return this.lastHeard < 0 ? [] : this.rows.lists[this.rows.heard[this.lastHeard]];
  }
  /**
   * Takes the next one of its places in order.
   * @param {number} k
   */
  put(k) {
    const { rows, lastPlace } = this, { last } = rows;
    this.placedBy.push(k);
    // at one moment receivers decide
    if (lastPlace < 0 || last[k] > last[lastPlace] || last[k] === last[lastPlace] &&
      rows.record(k).receiver >= rows.record(lastPlace).receiver) this.lastPlace = k;
  }
  /** @param {number | undefined} k @returns {Place | null} */
  placeAt(k) {
    if (k === undefined || k < 0) return null;
    let place = this.made.get(k);
    if (!place) this.made.set(k, place = this.rows.placeOf(k));
    return place;
  }
  get now() {
    return this.placeAt(this.lastPlace);
  }
  get status() {
    return this.lastStatus < 0 ? "" : this.rows.record(this.lastStatus).text;
  }
  get killed() {
    return this.lastPlace >= 0 && this.rows.killed[this.lastPlace] === 1;
  }
  /** Whether the last report of a kind is an emergency or of priority: which, or nothing. */
  get urgent() {
    return URGENT[Math.max(...this.lastTelling.map(k => k < 0 ? 0 : this.rows.urgent[k]))];
  }
  /**
   * How many of its places were known at a moment.
   * @param {number} moment
   */
  countAt(moment) {
    if (moment === Infinity) return this.placedBy.length;
    const later = this.placedBy.findIndex(k => this.rows.first[k] > moment);
    return later < 0 ? this.placedBy.length : later;
  }
  /**
   * The place that was known at a moment.
   * @param {number} moment
   */
  at(moment) {
    return moment === Infinity ? this.now : this.placeAt(this.placedBy[this.countAt(moment) - 1]);
  }
  /** Its places as vectors, x, y, z after each other. */
  get track() {
    if (this.line) return this.line;
    const { north, east } = this.rows, line = new Float64Array(3 * this.placedBy.length);
    this.placedBy.forEach((k, n) => line.set(vectorOf(north[k], east[k]), 3 * n));
    return this.line = line;
  }
}

/** @type {Record<string, number>} */
const ORDER = { station: 0, object: 1, item: 2 };
const byKindAndName = (/** @type {Thing} */ a, /** @type {Thing} */ b) =>
  ORDER[a.kind] - ORDER[b.kind] || byLetters(said(a.name), said(b.name));

/**
 * What a station's row says beside a place.
 * @param {Thing} station
 * @param {Rows} rows
 * @param {number} k
 */
function note(station, rows, k) {
  if (rows.is(k, "status")) station.lastStatus = rows.later(station.lastStatus, k);
  else if (rows.is(k, "weather")) station.lastWeather = rows.later(station.lastWeather, k);
  else if (rows.is(k, "telemetry")) station.lastTelemetry = rows.later(station.lastTelemetry, k);
  if (rows.urgent[k]) station.lastUrgent = rows.later(station.lastUrgent, k);
  const n = TELLING.indexOf(rows.kind[k]), { lastTelling } = station;
  if (n >= 0) lastTelling[n] = rows.later(lastTelling[n], k);
}
/** After so many seconds in which a station doesn't say so any more it is in need anew. */
const CALM = 1800;
/**
 * Finds since when stations are in need, or were last: a time without a break, and in which no
 * report of the kind that said so takes it back.
 * @param {Rows} rows @param {Thing[]} things
 * @returns {Generator<unknown, void>}
 */
function* findNeeds(rows, things) {
  const needy = new Map(things.filter(it => it.lastUrgent >= 0).map(it =>
    [rows.things.indexOf(it.key), { thing: it, kinds: new Set(), last: -Infinity }]));
  if (needy.size) yield* each(rows.order, k => {
    const it = needy.get(rows.station[k]), kind = rows.kind[k], first = rows.first[k];
    if (!it) return;
    if (!rows.urgent[k]) it.kinds.delete(kind);
    else {
      if (!it.kinds.size || first - it.last > CALM) it.thing.needSince = first;
      it.kinds.add(kind);
      it.last = rows.last[k];
    }
  });
}
/**
 * Stations, then objects, then items, each kind by name, with their places in order. `picks` are
 * the rows in their order, and `walk` goes through them in any: what lies apart is slow, so only
 * places come in order.
 * @param {Rows} rows @param {Picks} picks
 * @param {(run: (k: number) => void) => Generator<unknown, void>} walk
 * @returns {Generator<unknown, Thing[]>}
 */
export function* thingsOf(rows, picks, walk) {
  /** @type {Thing[]} */
  const things = [];
  const thing = (/** @type {number} */ n) => things[n] ||= new Thing(rows, rows.things[n]);
  yield* walk(k => {
    const station = thing(rows.station[k]);
    station.hear(k);
    note(station, rows, k);
    const it = thing(rows.thing[k]);
    if (rows.isUnfixed(k)) it.unfixed++;
    if (it !== station) it.hear(k);
    if (rows.gate[k]) thing(rows.gate[k] - 1).pass(k);
  });
  yield* each(picks, k => { if (rows.hasPlace(k)) things[rows.thing[k]].put(k); });
  const all = things.filter(Boolean).sort(byKindAndName);
  yield* findNeeds(rows, all);
  return all;
}
