// @ts-check
// Asks a server for a file: it may take long, as long as more of it comes.

import { kindOf, writtenIn } from "../formats/file-kinds.js";
import { joined } from "../formats/gunzip.js";
import { accepted, Refused } from "../util/refused.js";

/** @param {number} limit in milliseconds */
const late = limit => new Refused(`no answer within ${limit / 1000} s`);

/**
 * What a server answers, and all bytes of it.
 * @param {string} url
 * @param {number} limit after how many milliseconds in which nothing comes it is given up
 * @param {RequestInit} [options]
 */
export async function askFor(url, limit, options = {}) {
  const control = new AbortController();
  /** @type {ReturnType<typeof setTimeout> | undefined} */
  let timer;
  const wait = () => {
    clearTimeout(timer);
    timer = setTimeout(() => control.abort(), limit);
  };
  wait();
  try {
    const answer = accepted(
      await fetch(url, { cache: "no-store", signal: control.signal, ...options }));
    return { answer, bytes: await bytesOf(answer, wait) };
  } catch (fault) {
    throw control.signal.aborted ? late(limit) : fault;
  } finally {
    clearTimeout(timer);
  }
}
/**
 * The bytes of an answer.
 * @param {Response} answer
 * @param {() => void} onPart is called for each part of them
 */
async function bytesOf({ body }, onPart) {
  const reader = body?.getReader(), parts = [];
  for (let it = await reader?.read(); it && !it.done; it = await reader?.read()) {
    parts.push(it.value);
    onPart();
  }
  return joined(parts);
}
/** A list of more logs than these isn't one. */
const MOST = 1000;
/** How a line of a log begins. */
const LINE = /^\d{4}-\d\d-\d\dT\S*Z /;
/**
 * The names of logs in a list of them. What is something else, such as a log or a page that asks
 * for a password, is refused, since each of its lines would be asked for.
 * @param {Uint8Array} bytes
 */
export function namesIn(bytes) {
  const kind = kindOf(bytes, ""), refuse = (/** @type {string} */ what) => {
    throw new Refused(`the server answers with ${what}, and no list of logs`);
  };
  if (kind !== "log") refuse(/^(?:an? |XML)/.test(kind) ? kind : `a ${kind}`);
  const names = writtenIn(bytes).text.split("\n").map(it => it.trim())
    .filter(it => it && !it.startsWith("#"));
  if (names.some(it => LINE.test(it))) refuse("a log");
  if (names.length > MOST) refuse(`${names.length.toLocaleString("en")} lines`);
  return names;
}
