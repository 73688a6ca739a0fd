// @ts-check
// What a page that goes on says of itself: what it misses, how old what it shows is, wrong clocks.

import { age, fullText } from "../util/time.js";

/**
 * Of a page that goes on, in seconds since 1970: the moment now, the last transmission or not a
 * number, when the server last answered and since when it is away, both 0 for never; how often it
 * is asked, by how much this computer's clock is ahead of the server's, what is refused, and
 * whether moments are in local time.
 * @typedef {{ now: number, end: number, answered: number, away: number, each: number,
 *   ahead: number, refused: string, clock: { local: boolean } }} State
 */
/** What is older than this, and than three questions, is said to be old. */
const OLD = 120;
/** After so many seconds without a transmission this is said. */
const QUIET = 600;
/** A clock may be off by so many seconds. */
const OFF = 60;

/** @param {Pick<State, "now" | "answered" | "each">} state */
const isOld = ({ now, answered, each }) => answered > 0 && now - answered > Math.max(OLD, 3 * each);
/**
 * By how many seconds this computer's clock is ahead of a server's, which wrote a date after it was
 * asked and before its answer came; all in milliseconds.
 * @param {string | null} date as HTTP has it
 * @param {number} asked
 * @param {number} now
 */
export function aheadOf(date, asked, now) {
  const at = Date.parse(date || "");
  if (Number.isNaN(at)) return 0;
  // dates are in whole seconds
  return (at + 1000 < asked ? asked - at : at > now ? now - at : 0) / 1000;
}
/** @param {Pick<State, "now" | "end" | "ahead">} state */
function clockWords({ now, end, ahead }) {
  const far = age(Math.abs(ahead)), way = ahead > 0 ? "ahead of" : "behind";
  if (Math.abs(ahead) > OFF)
    return [`this computer's clock is ${far} ${way} the server's, and ages are wrong`];
  return end - now > OFF ? [`the last transmission is dated ${age(end - now)} after now: ` +
    "a receiver's clock or this computer's is wrong"] : [];
}
/**
 * What is said, in the order in which it matters.
 * @param {State} state
 */
export function staleWords(state) {
  const { now, end, answered, away, refused, clock } = state, words = refused ? [refused] : [];
  if (away) words.push(`the server has been away since ${fullText(away, clock)}`);
  else if (isOld(state))
    words.push(`this was loaded ${age(now - answered)} ago, at ${fullText(answered, clock)}`);
  const quiet = (isOld(state) ? answered : now) - end;
  if (quiet > QUIET)
    words.push(`nothing was heard for ${age(quiet)}${isOld(state) ? " before that" : ""}`);
  return [...words, ...clockWords(state)];
}
