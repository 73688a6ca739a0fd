// @ts-check
// The files that a reader gives: what each is, what the program says of it, and what is left of it.

import {
  countLines, damagedLines, endOf, kindOf, MANY, READ, REASONS, spelled, without, writtenIn,
} from "../formats/file-kinds.js";
import { beginningOf, MOST, TOO_LARGE, unzipped } from "../formats/gunzip.js";
import { linesIn } from "../ics309/own-lines.js";
import { shifting } from "./clock-shift.js";
import { goesOn } from "./growth.js";
import { inSlices } from "../util/tasks.js";
import { count } from "../util/text.js";
import { run } from "../worker/pool.js";
import { bytesIn, isSameSource, limits, sizeOf } from "../worker/sources.js";

/** @typedef {import("../formats/file-kinds.js").Damage} Damage */
/** @typedef {import("../worker/sources.js").Source} Source */
/**
 * A file that was given. `bytes` are its bytes as they are read, `given` those that came where
 * lines of them were left out, and `taken` what goes into the book, or null; `unread` says why it
 * can't be read at all. `ready` are the bytes of a file that were
 * read for a check, and are the next book's. Of the lines that were passed over, so many, no more
 * than the first are kept. A log `grows` that was given again, and `isUnfinished` where its last
 * line waits for its end.
 * @typedef {{ name: string, kind: string, bytes: Source, unread: string, receiver: string,
 *   moment: string, passed: string[], over: number, said: string, fault: string, reason: string,
 *   spelling: string[], damage: Damage[], leftOut: string[], taken: Source | null,
 *   ready?: Uint8Array, lines?: import("../ics309/own-lines.js").Line[], row?: HTMLTableRowElement,
 *   whole?: Uint8Array, mark?: string, away?: string, looking?: Promise<void>, given?: Source,
 *   grows?: boolean, isUnfinished?: boolean,
 *   handle?: FileSystemFileHandle }} Given what a browser reads a file again by is its handle
 */

/**
 * By how many seconds the clock of a receiver is put forward, or back.
 * @type {Map<string, number>}
 */
export const shifts = new Map();
/** So many lines that were passed over or left out are shown at most. */
export const SHOWN = 50;
/** So many bytes at the beginning of a file say what it is. */
const HEAD = 65536;
export const asText = (/** @type {Uint8Array} */ bytes) => new TextDecoder("latin1").decode(bytes);
const EMPTY_BOOK = "is empty, which no book is", EMPTY_GZIP = "is empty, which no gzip is";
const NO_CAPTURE = "the receiver isn't written as RX1, or the moment as 2024-06-21T18:00:00Z";
/**
 * A fault of an input, as the program says it.
 * @param {{ fault: string, line?: number }} got
 */
export const placeOf = got =>
  (/^[A-Z]/.test(got.fault) ? `line ${got.line}: ` : "") + (got.fault || "out of memory");

/**
 * A file of the table of files.
 * @param {string} name
 * @param {string} kind
 * @param {Source} bytes
 * @param {Partial<Given>} [of]
 * @returns {Given}
 */
export const fileOf = (name, kind, bytes, of = {}) => ({ name, kind, bytes, unread: "",
  receiver: "RX1", moment: "", passed: [], over: 0, said: "", fault: "", reason: "", spelling: [],
  damage: [], leftOut: [], taken: null, ...of });

/**
 * Whether two files are one: of one name, with the same bytes. One that is followed goes on.
 * @param {Given} a
 * @param {Given} b
 */
export const isSame = (a, b) => a.name === b.name && !a.whole && a.unread === b.unread &&
  isSameSource(a.bytes, b.bytes);
/**
 * What a file is known by to have changed.
 * @param {File} file
 */
export const markOf = ({ size, lastModified }) => `${size} ${lastModified}`;
/**
 * Whether a file is another one as it was before: a log of its name whose lines go on in it, or one
 * that can't be read any more, as a large one that has changed.
 * @param {Given} older
 * @param {Given} it
 */
export async function isGrown(older, it) {
  const areLogs = older.kind === "log" && it.kind === "log" && !older.whole;
  if (!areLogs || older.name !== it.name) return false;
  const had = older.given || older.bytes, now = it.bytes;
  if (sizeOf(now) < sizeOf(had)) return false;
  if (!(had instanceof Blob)) return goesOn(had, await bytesIn(now));
  const begin = await had.slice(0, HEAD).arrayBuffer().catch(() => null);
  return !begin || goesOn(new Uint8Array(begin),
    await bytesIn(now instanceof Blob ? now.slice(0, HEAD) : now.subarray(0, HEAD)));
}
/**
 * A file goes on as another one, in its place; it has to be looked at again.
 * @param {Given} older
 * @param {Given} it
 */
export function takePlace(older, it) {
  const { bytes, spelling, handle, mark } = it;
  Object.assign(older,
    { bytes, spelling, taken: null, given: undefined, handle, mark, grows: true });
}
/** Whether gzip packed what begins so. */
const isPacked = (/** @type {Uint8Array} */ head) => head[0] === 0x1f && head[1] === 0x8b;
/** @param {Blob} file */
async function bytesOf(file) {
  const head = new Uint8Array(await file.slice(0, HEAD).arrayBuffer());
  if (isPacked(head)) return beginningOf(unzipped(file), HEAD);
  if (file.size > MOST) throw new Error(TOO_LARGE);
  return { head, all: async () => new Uint8Array(await file.arrayBuffer()) };
}
/**
 * Reads a file that was given; of one that is nothing of a net, no more than how it begins.
 * @param {File} file
 * @param {(name: string, text: string, spelling: string) => Promise<void>} bring takes a map or a
 *   roster
 * @returns {Promise<Given | null>}
 */
export async function take(file, bring) {
  const unread = (/** @type {string} */ why, kind = "file") =>
    fileOf(file.name, kind, new Uint8Array(), { unread: why });
  try {
    // what packs nothing has a head all the same
    if (!file.size && /\.gz$/i.test(file.name)) return unread(EMPTY_GZIP, "an archive");
    const { head, all } = await bytesOf(file), { bytes: begin, spelling } = spelled(head);
    if (isPacked(begin)) return unread("is packed by gzip twice: unpack it once", "an archive");
    const kind = kindOf(begin, file.name.replace(/\.gz$/i, ""));
    if (kind === "a web page") {
      const lines = ownLinesIn(new TextDecoder().decode(await all()));
      if (lines.length) return fileOf(file.name, "page of an event", new Uint8Array(), { lines });
    }
    if (!READ.includes(kind)) return unread(`is ${kind}, which no log is`, kind);
    if (kind === "log" && await isNoLog(begin)) return unread("is no log", "file");
    const isPlain = kind === "book" || kind === "log" && !spelling.length;
    if (isPlain && file.size > limits.kept && !isPacked(head)) return fileOf(file.name, kind, file);
    const bytes = await all();
    if (kind === "book" || kind === "KISS stream") return fileOf(file.name, kind, bytes);
    if (kind === "log") {
      const plain = spelled(bytes);
      return fileOf(file.name, kind, plain.bytes, { spelling: plain.spelling });
    }
    const written = writtenIn(bytes);
    await bring(file.name, written.text, written.spelling);
    return null;
  } catch (fault) {
    const { message } = /** @type {Error} */ (fault);
    return unread(/^can't/.test(message) ? message : `can't be read: ${message}`);
  }
}
/**
 * The operator's own lines in the page of an event.
 * @param {string} html
 */
function ownLinesIn(html) {
  try {
    const data = new DOMParser().parseFromString(html, "text/html").getElementById("data");
    return linesIn(JSON.parse(data?.textContent || "{}").lines);
  } catch {
    return [];
  }
}
/**
 * How a log is refused.
 * @param {Uint8Array} bytes
 */
async function checkOf(bytes) {
  const got = await run("check", 30, [bytes]);
  return got.status ? { line: got.line, why: got.fault } : null;
}
/**
 * Whether a file that begins so is no log: most of its first lines are refused.
 * @param {Uint8Array} begin
 */
async function isNoLog(begin) {
  if (begin.length < HEAD / 2) return false;
  const end = begin.lastIndexOf(10) + 1 || begin.length, head = begin.subarray(0, end);
  const damage = await damagedLines(head, checkOf);
  if (damage?.length === 0) return false;
  const lines = asText(head).split("\n").length - 1;
  return !damage || 2 * damage.length > lines;
}

/**
 * What a check says of a log: each line that was passed over, and behind them, where all is read, a
 * sum.
 * @param {{ status: number, bytes: Uint8Array }} got
 */
function checkedIn({ status, bytes }) {
  const end = status ? bytes.length : bytes.lastIndexOf(10, -2) + 1, lines = bytes.subarray(0, end);
  return { said: asText(bytes.subarray(end)).trimEnd(), over: countLines(lines),
    passed: asText(lines.subarray(0, endOf(lines, SHOWN))).split("\n").filter(Boolean) };
}
/**
 * Reads a file as what it is, and keeps what the program says of it: one look after the other, so
 * that of two what was asked last stays.
 * @param {Given} file
 * @param {number} gap in seconds
 */
export const look = (file, gap) =>
  file.looking = (file.looking || Promise.resolve()).then(() => lookNow(file, gap));
/** @param {Given} file @param {number} gap */
async function lookNow(file, gap) {
  Object.assign(file, { fault: file.unread, said: "", reason: "", passed: [], over: 0, damage: [],
    taken: null, ready: undefined });
  try {
    if (!file.unread) await lookInto(file, gap);
  } catch (fault) {
    file.fault = /** @type {Error} */ (fault).message;
  }
}
/**
 * Keeps how a log is refused, and which of its lines are damaged; says whether it has to be looked
 * at again, as it is spelled.
 * @param {Given} file @param {Source} source @param {import("../worker/pool.js").Got} got
 */
async function keepDamage(file, source, got) {
  file.reason = got.fault;
  if (!REASONS[got.fault]) return false;
  // what is damaged is at hand from now on
  const bytes = file.bytes = got.inputs?.[0] ?? await bytesIn(source);
  // of a large file no more than its beginning was spelled
  const plain = source instanceof Blob ? spelled(bytes) : null;
  if (plain?.spelling.length) {
    Object.assign(file, plain, { reason: "" });
    return true;
  }
  file.damage = await damagedLines(bytes, checkOf, MANY) || [];
  return false;
}
/**
 * A log as the clocks are put right now.
 * @param {Uint8Array} bytes
 */
const moved = async bytes => await inSlices(shifting(bytes, new Map(shifts)), () => true) || bytes;
/** @param {Given} file @param {number} gap @returns {Promise<void>} */
async function lookInto(file, gap) {
  let { bytes } = file; // of a book and a log it may be a file
  /** @type {Uint8Array | undefined} */
  let ready;
  const refuse = (/** @type {{ fault: string, line?: number }} */ got) => {
    file.fault = placeOf(got);
  };
  if (file.kind === "book" && !sizeOf(bytes)) return refuse({ fault: EMPTY_BOOK });
  if (file.kind === "KISS stream") {
    if (!file.moment) return refuse({ fault: "give the receiver's name and the moment" });
    const got = await run("convert capture", [file.receiver, file.moment], [bytes]);
    if (got.status === 2) return refuse({ fault: NO_CAPTURE });
    if (got.status) return refuse(got);
    bytes = got.bytes;
  }
  if (file.kind === "book") {
    const got = await run("merge", gap, [bytes]);
    if (got.status) return refuse(got);
    const rows = /END (\d+)\n$/.exec(asText(got.bytes.subarray(-20)))?.[1];
    file.said = count(Number(rows), "transmission");
  } else {
    const got = await run("check", 30, [bytes], { keeps: bytes instanceof Blob });
    ready = got.inputs?.[0];
    Object.assign(file, checkedIn(got));
    if (got.status) return await keepDamage(file, bytes, got) ? lookInto(file, gap) : refuse(got);
  }
  // a book's moments stay: it no longer has what each receiver wrote
  const isMoved = file.kind !== "book" && shifts.size > 0;
  file.taken = isMoved ? await moved(ready ?? await bytesIn(bytes)) : bytes;
  file.ready = isMoved ? undefined : ready;
}
/**
 * The bytes of a file with damaged lines, which are at hand.
 * @param {Given} file
 */
const atHand = ({ bytes }) => /** @type {Uint8Array} */ (bytes);
/**
 * The text of a line that is refused.
 * @param {Given} file
 * @param {Damage} it
 */
export const lineText = (file, { begin, end }) =>
  new TextDecoder().decode(atHand(file).subarray(begin, Math.min(end, begin + 200))).trimEnd();
/**
 * Whether a log that grows was read while its last line was written, and nothing else is wrong.
 * @param {Given} file
 */
export const isBeingWritten = ({ grows = false, damage }) =>
  grows && damage.length === 1 && damage[0].why === "NoNewline";
/**
 * Leaves out the lines that are refused.
 * @param {Given} file
 */
export function leaveOut(file) {
  file.given ||= file.bytes;
  file.leftOut.push(...file.damage.map(it => `line ${it.line}: ${it.why}: ${lineText(file, it)}`));
  file.bytes = without(atHand(file), file.damage);
}
