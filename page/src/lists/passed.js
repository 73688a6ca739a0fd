// @ts-check
// Checkpoints: when each passed, as a table with a line for each who did, and each visit.

import { cell, List, number, pickButton, rowHead } from "./table-view.js";
import { far } from "../geo/units.js";
import { callIn, letters, make } from "../util/dom.js";
import { count, printable } from "../util/text.js";
import { timeText } from "../util/time.js";

/** @typedef {import("../net/checkpoints.js").Checkpoint} Checkpoint */
/** @typedef {import("../net/checkpoints.js").Passed} Passed */
/** @typedef {import("../net/checkpoints.js").Visit} Visit */
/** @typedef {import("../net/settings.js").Settings} Settings */
/** @typedef {{ points: Checkpoint[], settings: Settings }} View */
/** @typedef {{ lap: number, checkpoint: number }} Passage of a checkpoint in a lap */
/**
 * One who passed, and the visits by lap and then by checkpoint.
 * @typedef {{ bib: string, name: string, key: string, by: Map<number, Map<number, Visit>> }} Line
 */

/** A moment that is between two beacons has a mark, as `aprs-net passed` has it. */
const cameText = (/** @type {Visit} */ it, /** @type {Settings} */ settings) =>
  (it.isHeard ? "" : "~") + timeText(it.came, settings);
/** @param {Line} line @param {Passage} passage */
const visitOf = (line, { lap, checkpoint }) => line.by.get(lap)?.get(checkpoint);
/**
 * What a table of visits has columns of, lap by lap: each of so many checkpoints in the first lap,
 * and of other laps those that somebody passed.
 * @param {number} points @param {Passage[]} visits
 * @returns {Passage[]}
 */
export function passagesOf(points, visits) {
  const laps = new Map([[1, new Set(Array(points).keys())]]);
  for (const { lap, checkpoint } of visits)
    laps.set(lap, (laps.get(lap) || new Set()).add(checkpoint));
  return [...laps].sort(([a], [b]) => a - b).flatMap(([lap, passed]) =>
    [...passed].sort((a, b) => a - b).map(checkpoint => ({ lap, checkpoint })));
}
/**
 * Who passed, each with the visits, those with a number first.
 * @param {Visit[]} visits @param {Settings} settings
 */
export function linesOf(visits, { names }) {
  const lines = /** @type {Map<string, Line>} */ (new Map());
  for (const it of visits) {
    const { key, kind, name, label } = it.thing;
    const bib = kind === "station" ? names.of(name)?.bib || "" : "";
    const line = lines.get(key) || { bib, name: label, key, by: new Map() };
    lines.set(key, line);
    line.by.set(it.lap, (line.by.get(it.lap) || new Map()).set(it.checkpoint, it));
  }
  const collator = new Intl.Collator("en", { numeric: true });
  return [...lines.values()].sort((a, b) => Number(!a.bib) - Number(!b.bib) ||
    collator.compare(a.bib, b.bib) || collator.compare(a.name, b.name));
}
/**
 * A line for each who passed, with the time at each checkpoint and lap.
 * @param {HTMLElement} box @param {Visit[]} visits @param {View} view
 * @param {(key: string) => unknown} onPick
 */
export function passedList(box, visits, { points, settings }, onPick) {
  const passages = passagesOf(points.length, visits);
  const hasLaps = visits.some(it => it.lap > 1);
  const row = (/** @type {Line} */ it) => make("tr", {},
    cell("num", letters(printable(it.bib))),
    rowHead(pickButton(callIn(it.name), () => onPick(it.key))),
    ...passages.map(passage => {
      const visit = visitOf(it, passage);
      return cell("num time", visit ? cameText(visit, settings) : "");
    }));
  const titleOf = (/** @type {Passage} */ { lap, checkpoint }) =>
    printable(points[checkpoint].name) + (hasLaps ? ` ${lap}` : "");
  return new List(box, { id: "passed", caption: "passing times", row, keyOf: it => it.key,
    none: "nobody passed", columns: [{ title: "no.", value: it => it.bib },
      { title: "name", value: it => it.name }, ...passages.map(passage => ({
        title: titleOf(passage), number: true,
        value: (/** @type {Line} */ it) => visitOf(it, passage)?.came ?? Infinity }))] });
}
/**
 * Each visit, by checkpoint and moment.
 * @param {HTMLElement} box @param {View} view
 */
export function visitList(box, { points, settings }) {
  const row = (/** @type {Visit & { turn: number }} */ it) => make("tr", {},
    rowHead(letters(printable(points[it.checkpoint].name))), number(it.turn),
    cell("call", callIn(it.thing.label)), cell("num time", cameText(it, settings)),
    cell("num time", timeText(it.went, settings)), number(it.lap),
    cell("num", far(it.metres, settings)), cell("kind", it.isHeard ? "heard" : "between"));
  return new List(box, { id: "visits", caption: "visits", row, none: "no visit", columns: [
    { title: "checkpoint", value: it => points[it.checkpoint].name },
    { title: "turn", number: true, value: it => it.turn },
    { title: "name", value: it => it.thing.label },
    { title: "came", number: true, value: it => it.came },
    { title: "went", number: true, value: it => it.went },
    { title: "lap", number: true, value: it => it.lap },
    { title: "nearest", number: true, value: it => it.metres },
    { title: "by", value: it => it.isHeard ? "heard" : "between" }] });
}
/**
 * The visits, each with its turn at its checkpoint.
 * @param {Visit[]} visits
 */
export function turnsOf(visits) {
  const turns = /** @type {number[]} */ ([]);
  return visits.map(it => {
    const turn = turns[it.checkpoint] = (turns[it.checkpoint] || 0) + 1;
    return { ...it, turn };
  });
}
/**
 * What is said beside the visits: checkpoints that nobody passed, and places that are left out.
 * @param {Passed} passed @param {View} view
 */
export const passedWords = ({ near, wild }, { points, settings }) => [
  ...near.map(({ checkpoint, name, metres }) => `Nobody passed ${printable(
    points[checkpoint].name)}: ${name} was nearest, ${far(metres, settings)} away.`),
  ...wild ? [`${count(wild, "place")} left out, which nothing on the ground reaches.`] : [],
  "~ marks what lies between two beacons."].join(" ");
