// @ts-check
// The rows of a table as columns of numbers, which are made in one pass.

import { hashOf, isSamePart, Parts, viewOf, Words } from "./interning.js";
import { Lines } from "./table-lines.js";
import { STEP } from "../util/tasks.js";

/** What a row is. A kind that this page doesn't know is the last of these. */
export const KINDS = ["position", "object", "item", "status", "message", "ack", "rej", "mic-e",
  "weather", "telemetry", "raw", "other"];
const OTHER = KINDS.length - 1;
/** What is said in need, by how much it matters. */
export const URGENT = ["", "priority", "emergency"];
/** The kinds of rows that say whether their station is in need. */
export const TELLING = ["position", "mic-e", "status"].map(it => KINDS.indexOf(it));
/** What a comment or a status says in need, as a word of its own. */
const NEED = "EMERGENCY";

/**
 * The columns for so many rows.
 * @param {number} n
 */
const emptyColumns = n => ({
  kind: new Uint8Array(n), first: new Float64Array(n), last: new Float64Array(n),
  // who sent it and what it places, by their numbers in `things`; lists, by theirs in `lists`
  station: new Uint32Array(n), thing: new Uint32Array(n), heard: new Uint32Array(n),
  via: new Uint32Array(n),
  // who passed it on, by the number of that in `things` and 1; 0 for nobody
  gate: new Uint32Array(n),
  // where its line begins and ends in the table
  begin: new Uint32Array(n), stop: new Uint32Array(n),
  killed: new Uint8Array(n), urgent: new Uint8Array(n),
  // not a number, of what has no place
  north: new Float64Array(n), east: new Float64Array(n),
  // the first row of the same text but for moments, receivers and digipeaters
  same: new Uint32Array(n), order: new Uint32Array(0),
  // of what is the same in them a hash, and where it begins
  hash: new Uint32Array(n), rest: new Uint32Array(n),
});
/** @typedef {ReturnType<typeof emptyColumns>} Columns */
/**
 * What a worker can hand over of the rows of a table, which is in these bytes.
 * @typedef {{ bytes: Uint8Array, columns: Columns, names: string[], things: string[],
 *   lists: string[], until: number }} Read
 */

/**
 * What `orderOf` gives, of moments so far apart or so many that no number holds one and its row.
 * @param {Float64Array} moments @param {number} n
 */
function orderApart(moments, n) {
  const order = new Uint32Array(n), sorted = moments.slice(0, n).sort(), taken = new Uint32Array(n);
  for (let k = 0; k < n; k++) {
    let low = 0;
    for (let high = n; low < high;) {
      const middle = low + high >> 1;
      if (sorted[middle] < moments[k]) low = middle + 1;
      else high = middle;
    }
    order[low + taken[low]++] = k;
  }
  return order;
}
/**
 * The numbers of `n` moments, those of earlier ones first, of equal ones as they stand.
 * @param {Float64Array} moments @param {number} n
 */
export function orderOf(moments, n) {
  const order = new Uint32Array(n);
  let least = Infinity, most = -Infinity, isOrdered = true;
  for (let k = 0; k < n; k++) {
    order[k] = k;
    isOrdered = isOrdered && moments[k] >= most;
    least = Math.min(least, moments[k]);
    most = Math.max(most, moments[k]);
  }
  if (isOrdered) return order;
  // numbers alone are sorted much faster, as long as they are exact
  if ((most - least) * 1000 * n > 2 ** 52) return orderApart(moments, n);
  const keys = new Float64Array(n);
  for (let k = 0; k < n; k++) keys[k] = Math.round((moments[k] - least) * 1000) * n + k;
  keys.sort();
  for (let k = 0; k < n; k++) order[k] = keys[k] - Math.floor(keys[k] / n) * n;
  return order;
}

/**
 * Where a word of capitals stands by itself in bytes.
 * @param {Uint8Array} bytes
 * @param {string} word
 */
export function placesOfWord(bytes, word) {
  const codes = [...word].map(it => it.charCodeAt(0)), places = [];
  const isLetter = (/** @type {number | undefined} */ it) =>
    it !== undefined && (it | 32) >= 97 && (it | 32) <= 122;
  // of all its letters the last one is the rarest
  const last = codes.length - 1;
  for (let at = bytes.indexOf(codes[last]); at >= 0; at = bytes.indexOf(codes[last], at + 1)) {
    const begin = at - last;
    if (codes.every((it, n) => bytes[begin + n] === it) && !isLetter(bytes[begin - 1]) &&
      !isLetter(bytes[at + 1])) places.push(begin);
  }
  return places;
}

/** The columns that say when and by whom a row was heard, and not what it is. */
const HEARD = ["kind", "first", "last", "receivers", "receiver", "source", "destination", "via"];

/** Reads the rows of a table into columns. */
class TableReader extends Lines {
  /** @param {Uint8Array} bytes */
  constructor(bytes) {
    super(bytes);
    const { names } = this, of = (/** @type {string} */ name) => names.indexOf(name);
    this.n = 0;
    this.until = -Infinity;
    this.view = viewOf(bytes);
    this.room = this.guess();
    this.columns = emptyColumns(this.room);
    /** @type {string[]} */
    this.things = [];
    this.lists = new Parts(bytes);
    const named = (/** @type {string} */ kind) =>
      new Words(bytes, name => this.things.push(`${kind} ${name}`) - 1);
    this.named = { station: named("station"), object: named("object"), item: named("item") };
    this.kinds = new Words(bytes, text => KINDS.includes(text) ? KINDS.indexOf(text) : OTHER);
    this.needs = new Words(bytes, text => Math.max(0, URGENT.indexOf(text)));
    this.states = new Words(bytes, text => text === "killed" ? 1 : 0);
    this.kind = of("kind");
    this.first = of("first");
    this.last = of("last");
    this.receivers = of("receivers");
    this.source = of("source");
    this.via = of("via");
    this.gate = of("gate");
    this.name = of("name");
    this.state = of("state");
    this.latitude = of("latitude");
    this.longitude = of("longitude");
    this.says = of("says");
    this.pleas = placesOfWord(bytes, NEED);
    /** Which of these comes next. */
    this.plea = 0;
    this.rest = Math.max(...HEARD.map(of)) + 1;
    /** More columns than these aren't looked at one by one. */
    this.wanted = Math.min(names.length, Math.max(this.rest, this.kind, this.first, this.last,
      this.name, this.state, this.latitude, this.longitude, this.says,
      this.gate) + 1);
  }
  /** Makes room for more rows. */
  grow() {
    this.room = Math.ceil(1.25 * this.room) + 16;
    const before = this.columns, columns = this.columns = emptyColumns(this.room);
    for (const [name, column] of Object.entries(before))
      if (name !== "order") columns[/** @type {"kind"} */ (name)].set(column);
  }
  /**
   * What the field of a column stands for.
   * @param {Words<number>} words @param {number} column
   */
  word(words, column) {
    return words.of(this.beginOf(column), this.endOf(column));
  }
  /**
   * The number of a list, such as the receivers.
   * @param {number} column
   */
  list(column) {
    return this.lists.take(this.beginOf(column), this.endOf(column));
  }
  /** Takes the line that was found last. */
  line() {
    if (this.n === this.room) this.grow();
    const { columns, n, begins, end } = this;
    const kind = columns.kind[n] = this.word(this.kinds, this.kind);
    columns.first[n] = this.seconds(this.first);
    columns.last[n] = this.seconds(this.last);
    this.until = Math.max(this.until, columns.last[n]);
    columns.heard[n] = this.list(this.receivers);
    columns.station[n] = columns.thing[n] = this.word(this.named.station, this.source);
    columns.via[n] = this.list(this.via);
    if (this.has(this.gate)) columns.gate[n] = this.word(this.named.station, this.gate) + 1;
    columns.begin[n] = this.begin;
    columns.stop[n] = end;
    const rest = columns.rest[n] = Math.min(begins[this.rest], end);
    columns.hash[n] = hashOf(this.view, rest, end, columns.station[n] * KINDS.length + kind);
    columns.urgent[n] = this.need(kind, rest, end);
    this.place(KINDS[kind], n);
    this.n++;
  }
  /**
   * How urgent is what a row says, by Mic-E or in its comment or status.
   * @param {number} kind @param {number} begin @param {number} end
   */
  need(kind, begin, end) {
    const said = this.has(this.says) ? this.word(this.needs, this.says) : 0, { pleas } = this;
    while (pleas[this.plea] < begin) this.plea++;
    return TELLING.includes(kind) && pleas[this.plea] < end ? URGENT.length - 1 : said;
  }
  /**
   * Whether two rows are of one station and kind, and say the same.
   * @param {number} a @param {number} b
   */
  isSame(a, b) {
    const { view, columns: { station, kind, rest, stop } } = this;
    return station[a] === station[b] && kind[a] === kind[b] &&
      isSamePart(view, rest[a], stop[a], rest[b], stop[b]);
  }
  /**
   * Finds of each row the first one that says the same.
   * @returns {Generator<unknown, void>}
   */
  *match() {
    const { n, columns: { hash, same } } = this, keys = new Float64Array(n);
    // as much of a hash as there is exact room for before a row's number
    const cut = 2 ** Math.max(0, Math.ceil(Math.log2(n || 1)) - 21);
    for (let k = 0; k < n; k++) keys[k] = Math.floor(hash[k] / cut) * n + k;
    keys.sort();
    yield;
    for (let at = 0, begin = 0, last = -1; at < n; at++) {
      const now = Math.floor(keys[at] / n), k = keys[at] - now * n;
      if (now !== last) begin = at;
      last = now;
      same[k] = k;
      // nearly always the first one of a hash says the same
      for (let before = begin; before < at; before++) {
        const it = keys[before] - now * n;
        if (same[it] !== it || !this.isSame(it, k)) continue;
        same[k] = it;
        break;
      }
      if (at % STEP === 0) yield;
    }
  }
  /** @param {string} kind @param {number} n */
  place(kind, n) {
    const { columns, latitude, longitude } = this;
    columns.north[n] = columns.east[n] = NaN;
    if (kind === "object" || kind === "item") {
      columns.thing[n] = this.word(this.named[kind], this.name);
      columns.killed[n] = this.word(this.states, this.state);
    }
    if (!this.has(latitude) || !this.has(longitude)) return;
    columns.north[n] = this.number(latitude);
    columns.east[n] = this.number(longitude);
  }
}
/**
 * The columns of the rows of a table, which a worker can hand over.
 * @param {Uint8Array} bytes @returns {Generator<unknown, Read>}
 */
export function* columnsOf(bytes) {
  const reader = new TableReader(bytes), { wanted } = reader;
  while (reader.next(wanted)) {
    reader.line();
    if (reader.n % STEP === 0) yield;
  }
  yield* reader.match();
  const { columns } = reader;
  columns.order = orderOf(columns.first, reader.n);
  // nobody asks for these any more
  Object.assign(columns, { hash: new Uint32Array(0), rest: new Uint32Array(0) });
  return { bytes, columns, names: reader.names, things: reader.things,
    lists: reader.lists.texts, until: reader.until };
}
