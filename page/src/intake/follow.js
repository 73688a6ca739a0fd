// @ts-check
// A page that is served beside logs: it reads a list of their names, and asks again for what has
// grown. Each log is asked for by itself, and for so long; what was read of it stays.

import { alive, heard, isServed, tick } from "../app/live.js";
import { page } from "../app/state.js";
import { kindOf, linesLost, READ, spelled } from "../formats/file-kinds.js";
import { joined } from "../formats/gunzip.js";
import { work } from "./book.js";
import { files } from "./file-table.js";
import { goesOn } from "./growth.js";
import { askFor, namesIn } from "./http-get.js";
import { fileOf, leaveOut, look } from "./intake.js";
import { options, setOption, takeOptions } from "./options.js";
import { byId, choose, chosen } from "../util/dom.js";
import { Refused } from "../util/refused.js";
import { printable } from "../util/text.js";
import { fullText } from "../util/time.js";
import { bytesIn } from "../worker/sources.js";

/** @typedef {import("./intake.js").Given} Given */
/**
 * How often all are asked for in seconds, and in how many milliseconds something of an answer has
 * to come.
 */
export const pace = { each: 15, limit: 10000 };
const OVERLAP = 64; // bytes that are asked for again, to see that it is the same file

export function beginFollowing() {
  if (!isServed()) return;
  byId("follow-label").hidden = false;
  setOption("list", chosen.get("logs") || "");
  byId("follow").addEventListener("change", () => {
    takeOptions();
    choose("logs", options.list);
    if (!options.list) endFollowing();
    follow();
  });
  setInterval(follow, pace.each * 1000);
  setInterval(() => page.follows && tick(), 1000);
  return options.list ? follow() : Promise.resolve();
}
/** Whether a stream tells what is new, so that nothing has to be asked for. */
export const told = { now: false };
/**
 * The logs that were asked for, by their addresses; one that was taken away stays away.
 * @type {Map<string, Given>}
 */
export const followed = new Map();
/** Since when a log or the list doesn't come, by its address. */
const missed = new Map();
let following = false;

/** Nothing is followed any more, and nothing is said of it. */
function endFollowing() {
  page.follows = false;
  Object.assign(alive, { answered: 0, away: 0, refused: "" });
  byId("stale").textContent = "";
}
/**
 * Asks for all logs of the list once; for those of another one that was chosen meanwhile too.
 * @returns {Promise<void>}
 */
export async function follow() {
  const { list } = options;
  if (list) page.follows = true;
  if (!list || following || told.now) return;
  following = true;
  try {
    await followList(list);
  } catch (fault) {
    const why = reasonOf(fault);
    if (why) alive.refused = `${list}: ${sinceOf(list, why)}`;
    else alive.away ||= Date.now();
  }
  following = false;
  const isOther = options.list !== list;
  // a stream that came meanwhile tells of all logs
  if (isOther || told.now) Object.assign(alive, { away: 0, refused: "" });
  if (isOther) return follow();
  tick();
}
/** @param {string} list */
async function followList(list) {
  const base = new URL(list, location.href), asked = Date.now();
  const { answer, bytes } = await askFor(base.href, pace.limit);
  heard(answer, asked);
  const names = namesIn(bytes);
  missed.delete(list);
  const strange = names.find(it => !addressOf(it, base));
  const refused = strange ? `${list}: no log of this server: ${printable(strange)}` : "";
  Object.assign(alive, { away: 0, refused });
  await followAll(addressesOf(names, base));
}
/** @param {Map<string, string>} logs names by addresses */
async function followAll(logs) {
  // what comes at once is shown, also where another one hangs
  const came = await Promise.all([...logs].map(([address, name]) => comes(name, address)));
  let isNew = came.some(Boolean);
  for (const [address, file] of followed) {
    const away = "no longer on the list; what was read of it stays";
    if (!logs.has(address)) isNew = mark(file, away) || isNew;
  }
  if (isNew) await work();
}
/** The addresses of logs that are on their way. */
const coming = new Set();
/**
 * Asks for what is new in a log; says whether there was something, unless it comes so slowly that
 * others don't wait for it.
 * @param {string} name
 * @param {string} url
 */
async function comes(name, url) {
  if (coming.has(url)) return false;
  coming.add(url);
  let isLate = false;
  const came = followOne(name, url).finally(() => coming.delete(url)).then(isNew => {
    if (isLate && isNew) work();
    return isNew;
  });
  const late = new Promise(done => setTimeout(done, 2 * pace.limit, false));
  return Promise.race([came, late.then(() => { isLate = true; return false; })]);
}
/** What is said of what doesn't come, and since when. */
function sinceOf(/** @type {string} */ key, /** @type {string} */ why) {
  if (!missed.has(key)) missed.set(key, Date.now() / 1000);
  return `${why}, since ${fullText(missed.get(key), page.settings)}`;
}
/**
 * Marks a log; says whether that is new.
 * @param {Given} file
 * @param {string} away
 */
export function mark(file, away) {
  const isNew = (file.away || "") !== away;
  file.away = away;
  return isNew;
}
/**
 * The address of a log, or nothing where it is none of this server, the only one that may be asked.
 * What means something else in an address is a letter of a name.
 * @param {string} name
 * @param {URL} base
 */
function addressOf(name, base) {
  try {
    const { origin, href } = new URL(name.replace(/[%?#]/g, encodeURIComponent), base);
    return origin === base.origin ? href : "";
  } catch {
    return "";
  }
}
/**
 * Names by their addresses, each once.
 * @param {string[]} names
 * @param {URL} base
 */
const addressesOf = (names, base) => new Map(names.map(it =>
  /** @type {[string, string]} */ ([addressOf(it, base), it])).filter(([address]) => address));
/** Why something doesn't come, where the server is there. */
const reasonOf = (/** @type {unknown} */ fault) => fault instanceof Refused ? fault.message : "";
/**
 * The file of a log that is followed.
 * @param {string} name
 * @param {string} url
 */
export function followedOf(name, url) {
  let file = followed.get(url);
  if (!file) {
    file = fileOf(name, "log", new Uint8Array(), { whole: new Uint8Array(), mark: "",
      fault: "is still on its way" });
    followed.set(url, file);
    files.push(file);
  }
  return file;
}
/**
 * Asks for what is new in a log; says whether there was something.
 * @param {string} name
 * @param {string} url
 */
export async function followOne(name, url) {
  const file = followedOf(name, url);
  if (!files.includes(file)) return false;
  try {
    const grown = await growOne(file, url);
    missed.delete(url);
    return mark(file, "") || grown;
  } catch (fault) {
    file.mark = "";
    const why = reasonOf(fault) || "the server is away";
    if (file.taken) return mark(file, sinceOf(url, why));
    const isNew = file.fault !== why;
    file.fault = why;
    return isNew;
  }
}
/**
 * @param {Given} file
 * @param {string} url
 */
async function growOne(file, url) {
  const { headers } = (await askFor(url, pace.limit, { method: "HEAD" })).answer;
  const marked = ["content-length", "last-modified", "etag"].map(it => headers.get(it)).join();
  if (marked === file.mark && headers.get("content-length")) return false;
  const had = file.whole || new Uint8Array();
  const whole = await grownOf(had, url, Number(headers.get("content-length")));
  file.mark = marked;
  return takeWhole(file, had, whole);
}
/**
 * Takes all bytes of a log, of which some were there before.
 * @param {Given} file
 * @param {Uint8Array} had
 * @param {Uint8Array} whole
 */
export async function takeWhole(file, had, whole) {
  const { bytes, spelling } = spelled(whole), kind = kindOf(bytes, file.name);
  const before = file.taken, old = file.kind === "log" && !file.fault ? await bytesIn(file.bytes)
    : new Uint8Array();
  file.unread = READ.includes(kind) ? "" : `is ${kind}, which no log is`;
  if (!file.unread) {
    file.kind = kind === "book" || kind === "KISS stream" ? kind : "log";
    // of a log only whole lines: the last one may still be on its way
    const lines = file.kind === "log" ? bytes.subarray(0, bytes.lastIndexOf(10) + 1) : whole;
    Object.assign(file, { spelling, leftOut: [], whole, bytes: lines });
  }
  await lookWell(file);
  if (!file.taken) file.taken = before;
  if (file.kind === "log" && !file.fault && !isLonger(had, whole)) await keepEarlier(file, old);
  return true;
}
/**
 * Looks at a log: one bad line doesn't take a receiver off the page, which nobody may be at.
 * @param {Given} file
 */
async function lookWell(file) {
  await look(file, options.gap);
  if (!file.damage.length) return;
  leaveOut(file);
  await look(file, options.gap);
}
/**
 * Whether bytes go on with what is known of them, by its end.
 * @param {Uint8Array} had
 * @param {Uint8Array} whole
 */
const isLonger = (had, whole) => goesOn(had, whole, Math.max(0, had.length - OVERLAP));
/**
 * What was read of logs before they began anew.
 * @type {Map<Given, Given>}
 */
const earlier = new Map();
/**
 * Keeps the lines of a log that began anew, or was emptied, which it no longer has.
 * @param {Given} file
 * @param {Uint8Array} old
 */
async function keepEarlier(file, old) {
  const known = earlier.get(file), before = known ? await bytesIn(known.bytes) : new Uint8Array();
  const all = joined([before, old]);
  const lines = linesLost(all, await bytesIn(file.bytes));
  if (!known && !lines.length) return;
  const it = known || fileOf(`${file.name}, before it began anew`, "log", lines);
  if (!known) files.push(it);
  earlier.set(file, it);
  it.bytes = lines;
  await look(it, options.gap);
}
/**
 * The bytes of a file of which `had` are known: the rest alone, where the server can do so.
 * @param {Uint8Array} had
 * @param {string} url
 * @param {number} length
 */
async function grownOf(had, url, length) {
  const from = had.length - OVERLAP;
  if (from > 0 && length > had.length) {
    const { answer, bytes } =
      await askFor(url, pace.limit, { headers: { Range: `bytes=${from}-` } });
    if (answer.status !== 206) return bytes;
    const all = joined([had.subarray(0, from), bytes]);
    if (isLonger(had, all)) return all;
  }
  return (await askFor(url, pace.limit)).bytes;
}
