// @ts-check
// Books of some rows of a book. A book has a first line, a line for each row, and a line that says
// how many rows there are; a part of a book's rows makes a book too.

import { KINDS } from "./table-reader.js";

const LINE = 10;
/** The kinds of rows that tell of messages. */
const SAID = ["message", "ack", "rej"].map(it => KINDS.indexOf(it));

/**
 * The last line of a book of so many rows.
 * @param {number} rows
 */
const lastLine = rows => new TextEncoder().encode(`END ${rows}\n`);
/** @param {Uint8Array[]} pieces */
function joined(pieces) {
  const all = new Uint8Array(pieces.reduce((sum, it) => sum + it.length, 0));
  let at = 0;
  for (const it of pieces) {
    all.set(it, at);
    at += it.length;
  }
  return all;
}
/**
 * The book of those rows that are wanted, of a book of `n` rows; null where it has another number.
 * @param {Uint8Array} book @param {number} n @param {(row: number) => boolean} isWanted
 */
export function partOf(book, n, isWanted) {
  let at = book.indexOf(LINE) + 1, begin = 0, many = 0;
  const pieces = [];
  for (let k = 0; k < n; k++) {
    const end = book.indexOf(LINE, at) + 1;
    if (!end) return null;
    if (isWanted(k)) many++;
    else {
      // the first line too is before the first row
      if (begin < at) pieces.push(book.subarray(begin, at));
      begin = end;
    }
    at = end;
  }
  if (!at || book.indexOf(LINE, at) !== book.length - 1) return null;
  return joined([...pieces, book.subarray(begin, at), lastLine(many)]);
}
/**
 * The book of the rows that tell of messages, by the columns of its table, or null.
 * @param {Uint8Array} book @param {import("./table-reader.js").Columns} columns
 */
export const saidIn = (book, { kind, order }) =>
  partOf(book, order.length, k => SAID.includes(kind[k]));
