// @ts-check
// What a file is, by its name and by how it begins, and how its text is spelled.

import { hasCheckpoints } from "../net/checkpoints.js";

/**
 * Whether a text begins as a map does.
 * @param {string} begin
 */
export const isMap = begin => /^\s*(\{|<([^]*<)?([\w-]+:)?(gpx|kml)[\s>])/.test(begin);

/**
 * The first letters of a file, a byte each.
 * @param {Uint8Array} bytes
 */
const lettersOf = (bytes, most = 2000) =>
  String.fromCharCode(...bytes.subarray(0, most)).replace(/^\xef\xbb\xbf/, "");

/**
 * How files begin that are nothing of a net, and what they are.
 * @type {[RegExp, string][]}
 */
const STRANGERS = [
  [/^\x89PNG|^\xff\xd8\xff|^GIF8|^BM[^]{4}\0\0\0\0|^RIFF....WEBP|^II\*\0|^MM\0\*/s, "a picture"],
  [/^\s*(<\?xml[^]*?\?>\s*)?(<!--(?:(?!-->)[^])*-->\s*)*<svg[\s>]/, "a picture"],
  [/^%PDF/, "a PDF"], [/^PK\x03\x04/, "an archive (ZIP)"], [/^7z\xbc\xaf|^Rar!/, "an archive"],
  [/^SQLite format 3\0/, "a database (SQLite)"], [/^PMTiles/, "an archive of maps (PMTiles)"],
  [/^RIFF....WAVE|^OggS|^ID3|^fLaC/s, "a sound"], [/^....ftyp/s, "a film"],
  [/^\x7fELF|^MZ/, "a program"],
  [/^(\xd4\xc3\xb2\xa1|\xa1\xb2\xc3\xd4|\x0a\x0d\x0d\x0a)/, "a capture of packets (pcap)"],
  [/^\s*(<!doctype html|<html)/i, "a web page"], [/^\s*<\?xml|^\s*<[a-z]/i, "XML"],
];
/**
 * Whether bytes begin as a picture does that a browser draws.
 * @param {Uint8Array} bytes
 */
export const isPicture = bytes =>
  /^\x89PNG|^\xff\xd8\xff|^RIFF....WEBP/s.test(String.fromCharCode(...bytes.subarray(0, 12)));
/**
 * How a line of a roster begins: with a call or the head of a column before a sign; or with a call
 * before blanks, which has a digit or is in capitals, as words of a note aren't.
 */
const SSID = "(?:-(?:[0-9]{1,2}|\\*))?";
const HEAD = "callsign|station|tactical".replace(/[a-z]/g, it => `[${it}${it.toUpperCase()}]`);
const WORD = `(?:[A-Za-z0-9]{1,6}${SSID}|${HEAD})`;
const CALL = "(?:(?=[A-Za-z]*[0-9])(?=[0-9]*[A-Za-z])[A-Za-z0-9]{3,6}|" +
  `(?=[0-9]*[A-Z])[A-Z0-9]{3,6})${SSID}`;
const ROSTER =
  new RegExp(`^(?:\\s*#[^\\n]*\\n)*\\s*(?:"?${WORD}"? *[,;\\t]|"?${CALL}"?(?:\\s|$))`);

/**
 * What a file is: book, KISS stream, map, roster, checkpoints, log, or what else it is, such as
 * `a picture`.
 * @param {Uint8Array} bytes how it begins, as `spelled` gives it @param {string} name
 */
export function kindOf(bytes, name) {
  const begin = lettersOf(bytes);
  if (begin.startsWith("APRSBOOK") || !begin && /\.book$/i.test(name)) return "book";
  if (bytes[0] === 0xc0 || /\.kiss$/i.test(name)) return "KISS stream";
  if (isMap(begin)) return "map";
  const stranger = STRANGERS.find(([form]) => form.test(begin));
  if (stranger) return stranger[1];
  // the first line of a log may be torn
  const isList = /\.(txt|csv|tsv)$/i.test(name) && !/^\d{4}-\d\d-\d\dT/m.test(begin);
  return !isList ? "log" : hasCheckpoints(begin) ? "checkpoints"
    : ROSTER.test(begin) ? "roster" : "log";
}
/** The kinds that this page reads. */
export const READ = ["book", "KISS stream", "map", "roster", "checkpoints", "log"];

/**
 * A text as this page reads it: what Windows may write is taken out, and named.
 * @param {Uint8Array} bytes @returns {{ bytes: Uint8Array, spelling: string[] }}
 */
export function spelled(bytes) {
  const spelling = [], [a, b, c] = bytes;
  if (a === 0xff && b === 0xfe || a === 0xfe && b === 0xff) {
    const text = new TextDecoder(a === 0xff ? "utf-16le" : "utf-16be").decode(bytes);
    spelling.push("UTF-16");
    bytes = new TextEncoder().encode(text);
  } else if (a === 0xef && b === 0xbb && c === 0xbf) {
    spelling.push("a byte order mark");
    bytes = bytes.subarray(3);
  }
  const plain = withoutReturns(bytes);
  if (plain.length < bytes.length) spelling.push("CR LF");
  return { bytes: plain, spelling };
}
/**
 * A text that people wrote: in UTF-8 or UTF-16, or else as old programs of Windows write it, which
 * is said.
 * @param {Uint8Array} bytes
 */
export function writtenIn(bytes) {
  const plain = spelled(bytes).bytes;
  try {
    return { text: new TextDecoder("utf-8", { fatal: true }).decode(plain), spelling: "" };
  } catch {
    return { text: new TextDecoder("windows-1252").decode(plain),
      spelling: "read as Windows-1252, since it isn\u2019t in UTF-8" };
  }
}
const CR = 13, LF = 10;
/**
 * Bytes without the CR of each CR LF.
 * @param {Uint8Array} bytes
 */
function withoutReturns(bytes) {
  let at = bytes.indexOf(CR), from = 0, to = 0;
  if (at < 0) return bytes;
  const plain = new Uint8Array(bytes.length);
  for (; at >= 0; at = bytes.indexOf(CR, from)) {
    const end = bytes[at + 1] === LF ? at : at + 1;
    plain.set(bytes.subarray(from, end), to);
    to += end - from;
    from = at + 1;
  }
  plain.set(bytes.subarray(from), to);
  return plain.subarray(0, to + bytes.length - from);
}

/**
 * What a refused line of a log lacks.
 * @type {Record<string, string>}
 */
export const REASONS = {
  LongLine: "it has more than 8,192 bytes",
  Moment: "it doesn\u2019t begin with a moment such as 2024-06-21T18:00:00Z",
  Receiver: "no receiver\u2019s name stands after its moment",
  Hex: "its frame isn\u2019t written in hexadecimal digits",
  NoNewline: "the log ends within it",
};
/**
 * A line of a log that is refused: its number, where it stands, why.
 * @typedef {{ line: number, begin: number, end: number, why: string }} Damage
 */
/** More refused lines than these aren't looked for in the beginning of a file. */
const FEW = 100;
/** And in all of a file. */
export const MANY = 1000;
/** So many bytes are checked again after a line that is refused, up to the end of a line. */
const PIECE = 2 ** 16;
/** @param {Uint8Array} bytes @param {number} at */
const lineEnd = (bytes, at) => bytes.indexOf(10, at) + 1 || bytes.length;
/**
 * Where the first so many lines end.
 * @param {Uint8Array} bytes @param {number} many
 */
export function endOf(bytes, many) {
  let at = 0;
  for (let n = 0; n < many && at < bytes.length; n++) at = lineEnd(bytes, at);
  return at;
}
/** @param {Uint8Array} bytes */
export function countLines(bytes) {
  let n = 0;
  for (let at = 0; at < bytes.length; at = lineEnd(bytes, at)) n++;
  return n;
}

/**
 * The lines that a log has to lose so that the rest is read. `check` says where and why bytes are
 * refused, or gives null.
 * @param {Uint8Array} bytes
 * @param {(bytes: Uint8Array) => Promise<{ line: number, why: string } | null>} check
 * @returns {Promise<Damage[] | null>} null where there are too many, or where it isn't for a line
 */
export async function damagedLines(bytes, check, most = FEW) {
  /** @type {Damage[]} */
  const found = [];
  for (let at = 0, before = 0; at < bytes.length;) {
    const piece = bytes.subarray(at, lineEnd(bytes, at + PIECE)), fault = await check(piece);
    if (!fault) {
      before += countLines(piece);
      at += piece.length;
      continue;
    }
    if (!REASONS[fault.why] || found.length === most) return null;
    const begin = at + endOf(bytes.subarray(at), fault.line - 1);
    const end = lineEnd(bytes, begin);
    before += fault.line;
    found.push({ line: before, begin, end, why: fault.why });
    at = end;
  }
  return found;
}
/**
 * The lines of a log, each once, that another one doesn't have.
 * @param {Uint8Array} log
 * @param {Uint8Array} other
 */
export function linesLost(log, other) {
  const linesOf = (/** @type {Uint8Array} */ bytes) =>
    new Set(new TextDecoder("latin1").decode(bytes).split("\n"));
  const there = linesOf(other), lost = [...linesOf(log)].filter(it => it && !there.has(it));
  return new TextEncoder().encode(lost.map(it => it + "\n").join(""));
}
/**
 * The bytes without these lines.
 * @param {Uint8Array} bytes
 * @param {Damage[]} damage
 */
export function without(bytes, damage) {
  const left = new Uint8Array(bytes.length - damage.reduce((n, it) => n + it.end - it.begin, 0));
  let at = 0, from = 0;
  for (const { begin, end } of [...damage, { begin: bytes.length, end: bytes.length }]) {
    left.set(bytes.subarray(from, begin), at);
    at += begin - from;
    from = end;
  }
  return left;
}
