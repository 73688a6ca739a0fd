// @ts-check
// The runs that make a book and its tables of files, which begin before the files are checked.

import { newIn } from "./growth.js";
import { placeOf, shifts } from "./intake.js";
import { merged } from "./merging.js";
import { run } from "../worker/pool.js";
import { limits, sizeOfAll } from "../worker/sources.js";

/** @typedef {import("./intake.js").Given} Given */
/** @typedef {import("../worker/sources.js").Source} Source */
/** @typedef {import("../worker/pool.js").Got} Got */
/** @typedef {"merge" | "rows" | "messages"} Command */
/** @typedef {Partial<Record<Command, Promise<Got | null>>>} Begun */
/**
 * A book, its tables, and the columns of its rows; how the clocks of its receivers were put right.
 * @typedef {{ book: Uint8Array, rows: Uint8Array, messages: Uint8Array,
 *   read: import("../net/table-reader.js").Read | null, shifts: Map<string, number> }} Texts
 */
/**
 * These, and who repeated whom: once that is counted, and what counts it.
 * @typedef {Texts & { repeats?: string, countRepeats: () => Promise<string | undefined> }} Made
 */
/** A run of all files that was refused: for which of them, or -1 where it is for none. */
export class Refused extends Error {
  /** @param {Got} got */
  constructor(got) {
    super(placeOf(got));
    this.input = got.status === 1 ? got.input : -1;
  }
}

/**
 * Runs that began before their files were checked: the files, what was taken of them, the gap, and
 * what comes of each run.
 * @type {{ all: Given[], inputs: Source[], gap: number, got: Begun } | null}
 */
let early = null;
/**
 * The last book: of what it was made by files, and with which gap.
 * @type {{ book: Uint8Array, of: Map<Given, Source>, gap: number } | null}
 */
let last = null;
/**
 * What has to be merged for a book of these files: the last book and what is new in them since,
 * since a merge is the same in whatever parts, or nothing where that is another book.
 * @param {Map<Given, Source>} of @param {number} gap
 * @returns {Source[] | null}
 */
function grownTo(of, gap) {
  const rest = last && last.gap === gap ? newIn(last.of, of) : null;
  return last && rest && [last.book, ...rest];
}
/**
 * Begins with files that aren't checked yet. Files have the same table as their book, so it need
 * not wait for the book; but each run holds all files, so only where they are small. Where clocks
 * are put right, logs are moved once they are checked.
 * @param {Given[]} all
 * @param {number} gap
 */
export function beginEarly(all, gap) {
  const inputs = all.map(it => it.taken || it.bytes);
  early = null;
  if (shifts.size || sizeOfAll(inputs) > limits.alone) return;
  const begin = (/** @type {Command} */ command, /** @type {Source[]} */ given) =>
    run(command, gap, given).catch(() => null);
  const wanted = grownTo(new Map(all.map((it, k) => [it, inputs[k]])), gap) || inputs;
  const rows = begin("rows", wanted), merge = begin("merge", wanted);
  const messages = merge.then(book => book?.status === 0 ? begin("messages", [book.bytes]) : null);
  early = { all, inputs, gap, got: { merge, rows, messages } };
}
/**
 * What began early over just what these files are now.
 * @param {Given[]} good
 * @param {number} gap
 * @returns {Begun}
 */
function begunOf(good, gap) {
  const is = early && early.gap === gap && early.all.length === good.length &&
    early.all.every((it, k) => good.includes(it) && it.taken === early?.inputs[k]);
  return is && early ? early.got : {};
}
/** @param {Got} got */
function orRefused(got) {
  if (got.status) throw new Refused(got);
  return got;
}
/**
 * What a run gives that began early and well, or else one that is begun now.
 * @param {Promise<Got | null> | undefined} begun @param {() => Promise<Got>} begin
 */
async function answerOf(begun, begin) {
  const before = await begun;
  return before?.status === 0 ? before : orRefused(await begin());
}
/**
 * A book and its tables.
 * @typedef {{ book: Uint8Array, rows: Got, messages: Got }} Tables
 */
/**
 * The tables of a large book, one after the other, so that there is room for each; the book goes to
 * and fro.
 * @param {Uint8Array} book @param {number} gap @returns {Promise<Tables>}
 */
async function tablesApart(book, gap) {
  const ofBook = async (/** @type {Command} */ command) => {
    const got = orRefused(await run(command, gap, [book], { lent: [book], keeps: true }));
    [book] = got.inputs || [book];
    return got;
  };
  const rows = await ofBook("rows"), { said } = rows;
  // most rows tell of no message, and needn't be read again
  const some = said && await run("messages", gap, [said], { lent: [said] }).catch(() => null);
  const messages = some?.status === 0 ? some : await ofBook("messages");
  return { book, rows, messages };
}
/**
 * The book of these files: of the last one and what is new, where that goes; or else of all.
 * @param {Given[]} good @param {number} gap
 * @param {Promise<Got | null> | undefined} begun
 * @param {(share: number) => void} tellShare
 */
async function bookOf(good, gap, begun, tellShare) {
  const lent = good.flatMap(it => it.ready || []);
  const inputs = good.map(it => it.ready || it.taken || it.bytes);
  for (const it of good) it.ready = undefined;
  const before = await begun;
  if (before?.status === 0) return before.bytes;
  const grown = grownTo(sourcesOf(good), gap);
  if (grown?.length === 1) return /** @type {Uint8Array} */ (grown[0]);
  const got = grown && await run("merge", gap, grown).catch(() => null);
  // what is refused is named by its place among all
  return got?.status === 0 ? got.bytes
    : orRefused(await merged(inputs, gap, lent, tellShare)).bytes;
}
/** @param {Given[]} good @returns {Map<Given, Source>} */
const sourcesOf = good => new Map(good.map(it => [it, it.taken || it.bytes]));
/**
 * Book and tables of these files, also where they began early and well.
 * @param {Given[]} good
 * @param {number} gap
 * @param {(share: number) => void} tellShare
 * @returns {Promise<Texts>}
 */
export async function textsOf(good, gap, tellShare) {
  const begun = begunOf(good, gap);
  early = null;
  const by = new Map(shifts), of = sourcesOf(good);
  const tellMerged = (/** @type {number} */ share) => tellShare(0.3 + 0.3 * share);
  const bytes = await bookOf(good, gap, begun.merge, tellMerged);
  tellMerged(1);
  const made = (/** @type {Tables} */ { book, rows, messages }) => {
    last = { book, of, gap };
    return { book, rows: rows.bytes, read: rows.read || null, messages: messages.bytes,
      shifts: by };
  };
  if (bytes.length > limits.alone) return made(await tablesApart(bytes, gap));
  const [rows, messages] = await Promise.all([
    answerOf(begun.rows, () => run("rows", gap, [bytes])),
    answerOf(begun.messages, () => run("messages", gap, [bytes]))]);
  return made({ book: bytes, rows, messages });
}
