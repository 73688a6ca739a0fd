// @ts-check
// What wants doing: how bad it is, and in words.

import { markWords } from "../lists/dealt-mark.js";
import { isMine, isOpen } from "../lists/messages.js";
import { needOf } from "../net/alarms.js";
import { apartText, clockWords } from "../net/clock-words.js";
import { count, namesText } from "../util/text.js";
import { timeText } from "../util/time.js";

/** @typedef {import("../net/things.js").Thing} Thing */
/** @typedef {import("../net/message-table.js").Message} Message */
/** @typedef {import("../net/settings.js").Settings} Settings */
/** @typedef {import("../lists/dealt-mark.js").Marking} Marking */
/** @typedef {Pick<Marking, "markOf"> & { settings: Settings }} Known what is known of alarms */
/**
 * A word of news: where it stands, or what it is about; how bad it is; what it says; whether some
 * of it was heard before the time that is shown; of which kind of station it is.
 * @typedef {{ href: string, grade: "alarm" | "bad" | "warn" | "good", text: string,
 *   pick?: string, isEarlier?: boolean, kind?: string }} Word
 */

/**
 * With what it is known by, however it is worded, and the alarm that can be dealt with.
 * @typedef {Word & { id: string, alarm: string }} Need
 */
/**
 * When something was said last in need: by the clocks of others, where the receiver's is wrong.
 * @param {Thing} it @param {Settings} settings
 */
function momentOfNeed({ rows, lastUrgent: k }, settings) {
  const text = timeText(rows.heardAt(k), settings), own = timeText(rows.last[k], settings);
  return text === own ? text : `${text} (${own} by ${namesText(rows.lists[rows.heard[k]])})`;
}
/**
 * Who is in need, and who said so before: an emergency first, then by time; last those with whom
 * somebody deals.
 * @param {Thing[]} things
 * @param {Known} known
 * @returns {Need[]}
 */
export function needsOf(things, { settings, markOf }) {
  const words = [], weight = (/** @type {Thing} */ it) => it.rows.urgent[it.lastUrgent];
  const dealt = (/** @type {Thing} */ it) => it.urgent ? markOf(needOf(it)) : null;
  const urgent = things.filter(it => it.lastUrgent >= 0);
  const waits = (/** @type {Thing} */ it) => Number(it.urgent !== "" && !dealt(it));
  urgent.sort((a, b) => waits(b) - waits(a) ||
    Number(Boolean(b.urgent)) - Number(Boolean(a.urgent)) || weight(b) - weight(a) ||
    b.rows.heardAt(b.lastUrgent) - a.rows.heardAt(a.lastUrgent));
  for (const it of urgent) {
    const at = momentOfNeed(it, settings), mark = dealt(it), name = settings.names.shown(it.name);
    const level = weight(it) === 2 ? "emergency" : "priority";
    /** @type {Word["grade"]} */
    const grade = mark || !it.urgent ? "warn" : level === "emergency" ? "alarm" : "bad";
    const id = `${it.rows.first[it.lastUrgent]} ${it.key}`;
    const end = mark ? `, ${markWords(mark, settings)}` : "";
    words.push({ href: "#where", pick: it.key, id, alarm: needOf(it), grade, text: it.urgent
      ? `${level === "emergency" ? "EMERGENCY" : "priority"}: ${name}, ${at}${end}`
      : `${name} said ${level} at ${at}, and no longer does` });
  }
  return words;
}
/** So many who are in need are named; nobody can fill the page by sending many of them. */
const NEEDS = 6;
/**
 * Those who are in need most, and how many more there are.
 * @param {Need[]} needs
 * @returns {Word[]}
 */
function mostOf(needs) {
  const left = needs.slice(NEEDS);
  if (!left.length) return needs;
  const { grade } = left[0], more = left.length.toLocaleString("en");
  return [...needs.slice(0, NEEDS),
    { href: "#list", grade, text: `and ${more} more who are or were in need` }];
}
/**
 * Wrong clocks, each in words. A pair that disagrees is said once.
 * @param {import("../net/receivers.js").Receiver[]} receivers
 * @param {number} gap
 * @returns {Word[]}
 */
function clocksOff(receivers, gap) {
  /** @type {Word[]} */
  const words = [];
  for (const it of receivers) {
    if (!it.clock) continue;
    const clock = clockWords(it, gap);
    if (Number.isNaN(it.clock.by))
      for (const one of it.clock.from.filter(({ b }) => it.name < b))
        words.push({ href: "#ears", grade: "bad",
          text: `the clocks of ${it.name} and ${one.b} are ${apartText(one.by)} apart` });
    else if (clock.wrong)
      words.push({ href: "#ears", grade: "bad",
        text: `the clock of ${it.name} is ${clock.text} from the others` });
  }
  return words;
}

/** A clock may be ahead by so many seconds. */
const AHEAD = 60;
/**
 * Who heard something that is still to come, in words.
 * @param {import("../net/receivers.js").Receiver[]} receivers
 * @param {number} now by this computer's clock, in seconds
 * @returns {Word[]}
 */
function datedAhead(receivers, now) {
  const ahead = receivers.filter(it => it.last - now > AHEAD);
  if (!ahead.length) return [];
  const last = ahead.reduce((most, it) => Math.max(most, it.last), now);
  const names = namesText(ahead.map(it => it.name));
  return [{ href: "#ears", grade: "bad", text: `${names} heard something ` +
    `${apartText(last - now)} after now: a clock there, or this computer\u2019s, is wrong` }];
}
/** After so many seconds it is said that ages count to the last transmission, up to a day. */
const QUIET = 600, DAY = 86400;
/**
 * That ages don't count to now, while a net may go on.
 * @param {number} end when something was last heard
 * @param {number} now
 * @param {Settings} settings
 * @returns {Word[]}
 */
function agesText(end, now, settings) {
  const far = now - end;
  return !(far > QUIET && far < DAY) ? [] : [{ href: "#when", grade: "warn",
    text: `ages count to ${timeText(end, settings)}, ${apartText(far)} ago, ` +
      "when something was last heard" }];
}
/** So many of those who are missing are named. */
const NAMED = 3;
/**
 * Who is expected and wasn't heard for so many minutes, by name.
 * @param {{ missing: string[], expected: number, silent: number, settings: Settings }} of minutes
 */
function missingText({ missing, expected, silent, settings: { names } }) {
  const text = `${missing.length} of ${expected} expected not heard`;
  if (!missing.length) return text;
  const more = missing.length > NAMED ? `, and ${missing.length - NAMED} more` : "";
  const first = missing.slice(0, NAMED).map(it => names.shown(it)).join(", ");
  return `${text} for ${silent} min: ${first}${more}`;
}

/**
 * How many of those that are counted were heard before the time that is shown.
 * @param {number} early
 */
const earlierText = early => early ? ` (${early.toLocaleString("en")} earlier than is shown)` : "";
/**
 * What the messages that wait say, with those of the reader's own call.
 * @param {Message[]} messages those in a state
 * @param {string} state
 * @param {string} ownCall
 */
function messagesText(messages, state, ownCall) {
  const mine = messages.filter(it => isMine(it, ownCall)).length;
  return `${count(messages.length, "message")} ${state}` +
    (mine ? `, ${mine} of ${ownCall}` : "");
}
/**
 * All news of a net, what matters most first. What wants doing is of all the time.
 * @param {Pick<import("../net/net.js").Net,
 *   "since" | "things" | "others" | "receivers" | "whole">} net
 * @param {Known & { gap: number, silent: number, isLongAgo: (last: number) => boolean,
 *   isSilent: (it: import("../net/net.js").Heard) => boolean, ownCall: string, missing: string[],
 *   expected: number, now?: number, end: number }} of the gap in seconds, silence in minutes, who
 *   is expected; the moment to which ages count; and the moment now, where that is another
 * @returns {Word[]}
 */
export function newsOf(net, of) {
  const { gap, silent, isLongAgo, isSilent, ownCall, missing, expected, settings, now, end } = of;
  const { whole, since } = net, words = mostOf(needsOf(whole.needy, of)).slice();
  const unfixed = net.things.filter(it => it.unfixed).length;
  /** @param {string} href @param {Word["grade"]} grade @param {string} text */
  const say = (href, grade, text) => words.push({ href, grade, text });
  const sayOf = (/** @type {string} */ href, /** @type {Word["grade"]} */ grade,
    /** @type {number[]} */ moments, /** @type {string} */ text, kind = "") => {
    const early = moments.filter(it => it < since).length;
    words.push({ href, grade: moments.length ? grade : "good", text: text + earlierText(early),
      isEarlier: early > 0, ...kind && { kind } });
  };
  for (const state of ["unanswered", "rejected"]) {
    const open = whole.messages.filter(it => it.state === state && isOpen(it, of));
    if (open.length || state === "unanswered")
      sayOf("#said", "bad", open.map(it => it.last), messagesText(open, state, ownCall));
  }
  const quiet = whole.stations.filter(isSilent);
  sayOf("#list", "warn", quiet.map(it => it.heardAt),
    `${count(quiet.length, "station")} silent for over ${silent} min`,
    quiet.length ? "silent" : "");
  if (expected)
    say("#roster", missing.length ? "bad" : "good", missingText(of));
  // where a clock is wrong, that is what is said
  const wrong = net.receivers.filter(it => clockWords(it, gap).wrong).map(it => it.name);
  const deaf = whole.ears.filter(it => isLongAgo(it.last)).map(it => it.name)
    .filter(it => !wrong.includes(it));
  if (deaf.length)
    say("#ears", "warn", `nothing heard for over ${silent} min by ${namesText(deaf)}`);
  words.push(...clocksOff(net.receivers, gap));
  if (now !== undefined)
    words.push(...datedAhead(net.receivers, now), ...agesText(end, now, settings));
  if (unfixed) say("#list", "warn", `${count(unfixed, "station")} at 0, 0, which is no fix`);
  if (net.others)
    say("#list", "warn", `${count(net.others, "transmission")} of a kind that this page ` +
      "doesn\u2019t know");
  return words;
}
