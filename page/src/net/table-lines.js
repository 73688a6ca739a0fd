// @ts-check
// The tables of a book (aprsbook-table): a first line that names the columns, then a line for each
// row, with a tab between two fields. Fields are taken by the names of their columns alone. A table
// stays in the bytes in which it came, and of a row becomes text what is asked for.

import { textIn } from "./interning.js";

/** The ends of a line and of a field. */
const LINE = 10, TAB = 9;
/** A moment has so many bytes. */
const MOMENT = 24;
/** By so many lines it is guessed how many there are. */
const FIRST = 1000;
const encoder = new TextEncoder();
/**
 * A table as it is read, of its text.
 * @param {string} text
 */
export const tableOf = text => encoder.encode(text);
/** So many bytes of a table become text at once. */
const PIECE = 2 ** 20;
/**
 * The text of a table, in pieces.
 * @param {Uint8Array} table
 * @returns {Generator<string>}
 */
export function* textsOf(table) {
  const decoder = new TextDecoder("utf-8", { ignoreBOM: true });
  for (let at = 0; at < table.length; at += PIECE)
    yield decoder.decode(table.subarray(at, at + PIECE), { stream: true });
}
/** @param {string[]} names @param {string} line @returns {Record<string, string>} */
export function recordOf(names, line) {
  const fields = line.split("\t");
  /** @type {Record<string, string>} */
  const record = {};
  // of many rows a loop takes half of what `Object.fromEntries` does
  for (let n = 0; n < names.length; n++) record[names[n]] = fields[n] ?? "";
  return record;
}

const digit = (/** @type {Uint8Array} */ bytes, /** @type {number} */ at) => bytes[at] - 48;
const digits2 = (/** @type {Uint8Array} */ bytes, /** @type {number} */ at) =>
  10 * digit(bytes, at) + digit(bytes, at + 1);
const lastDay = { is: -1, begin: 0 };
/**
 * Seconds since 1970, of a moment such as 2024-06-21T18:00:30.000Z in bytes.
 * @param {Uint8Array} bytes @param {number} at
 */
function secondsAt(bytes, at) {
  const year = 100 * digits2(bytes, at) + digits2(bytes, at + 2);
  const month = digits2(bytes, at + 5), day = digits2(bytes, at + 8);
  const is = (year * 16 + month) * 32 + day;
  if (is !== lastDay.is)
    Object.assign(lastDay, { is, begin: Date.UTC(year, month - 1, day) / 1000 });
  const millis = 10 * digits2(bytes, at + 20) + digit(bytes, at + 22);
  return lastDay.begin + 3600 * digits2(bytes, at + 11) + 60 * digits2(bytes, at + 14) +
    digits2(bytes, at + 17) + millis / 1000;
}
/**
 * A number such as -72.0291667 in bytes.
 * @param {Uint8Array} bytes @param {number} at @param {number} end
 */
function numberAt(bytes, at, end) {
  const sign = bytes[at] === 45 ? -1 : 1;
  let all = 0, below = 1, isBelow = false;
  for (let k = sign < 0 ? at + 1 : at; k < end; k++) {
    const n = digit(bytes, k);
    if (n === -2) isBelow = true;
    else {
      all = 10 * all + n;
      if (isBelow) below *= 10;
    }
  }
  return sign * all / below;
}

/** Goes through a table line by line, and finds the fields of each. */
export class Lines {
  /** @param {Uint8Array} bytes */
  constructor(bytes) {
    const end = bytes.indexOf(LINE);
    this.bytes = bytes;
    this.names = end < 0 ? [] : textIn(bytes, 0, end).split("\t");
    this.at = end < 0 ? bytes.length : end + 1;
    /** Where the line that was found last begins. */
    this.begin = 0;
    // where each field begins, and the end of the line after them; of a column that isn't there,
    // two places where it is empty
    this.begins = new Uint32Array(this.names.length + 2);
    /** Which columns have a moment in each line. */
    this.isMoment = this.names.map(it => it === "first" || it === "last");
    this.lastMoment = this.isMoment.lastIndexOf(true);
  }
  /** About how many lines there are below the head, by the first ones. */
  guess() {
    const { bytes, at: begin } = this;
    let n = 0, at = begin;
    for (let end; n < FIRST && (end = bytes.indexOf(LINE, at)) >= 0; at = end + 1) n++;
    return n < FIRST ? n : Math.ceil(1.02 * n * (bytes.length - begin) / (at - begin));
  }
  /**
   * Finds the fields of the next line, those of so many columns; says whether there is a line.
   * @param {number} wanted
   */
  next(wanted = this.names.length) {
    const { bytes, begins, isMoment, lastMoment } = this, { length } = bytes;
    while (bytes[this.at] === LINE) this.at++;
    let { at } = this, n = 1;
    if (at >= length) return false;
    this.begin = begins[0] = at;
    for (; at < length && n <= wanted; at++) {
      const code = bytes[at];
      if (code === LINE) break;
      if (code !== TAB) continue;
      begins[n] = at + 1;
      // of a moment all is known but what it says
      if (n <= lastMoment && isMoment[n] && bytes[at + MOMENT + 1] === TAB) at += MOMENT;
      n++;
    }
    if (n > wanted) at = bytes.indexOf(LINE, at);
    if (at < 0) at = length;
    while (n <= wanted) begins[n++] = at + 1;
    this.at = at + 1;
    return true;
  }
  /** Where the line that was found last ends. */
  get end() {
    return this.at - 1;
  }
  /**
   * Whether a column is there and not empty.
   * @param {number} column
   */
  has(column) {
    return column >= 0 && this.begins[column + 1] > this.begins[column] + 1;
  }
  /** @param {number} column */
  beginOf(column) {
    return column < 0 ? 0 : this.begins[column];
  }
  /** @param {number} column */
  endOf(column) {
    return column < 0 ? 0 : Math.max(this.begins[column], this.begins[column + 1] - 1);
  }
  /** @param {number} column */
  field(column) {
    return this.has(column) ? textIn(this.bytes, this.beginOf(column), this.endOf(column)) : "";
  }
  /** @param {number} column */
  seconds(column) {
    return column < 0 ? NaN : secondsAt(this.bytes, this.begins[column]);
  }
  /** @param {number} column */
  number(column) {
    return numberAt(this.bytes, this.beginOf(column), this.endOf(column));
  }
}
/**
 * The rows of a small table, each by the names of its columns.
 * @param {Uint8Array} bytes @returns {Record<string, string>[]}
 */
export function recordsOf(bytes) {
  const lines = new Lines(bytes), records = [];
  while (lines.next()) records.push(recordOf(lines.names, textIn(bytes, lines.begin, lines.end)));
  return records;
}
