// @ts-check
// Who came by a checkpoint, and when, as `aprs-net passed` has it: by the way between two places,
// and lap by lap. A thing goes straight from each place to the next, unless too much time lies
// between them, it would be too fast, or it was killed. A visit begins where that way comes into
// the circle. For another lap it has to be twice the radius away in between.

import { chordOf, metresBetween } from "../geo/chord.js";

/** @typedef {import("./things.js").Thing} Thing */
/** @typedef {import("../geo/chord.js").Spot} Spot */
/** @typedef {Spot & { name: string, metres: number }} Checkpoint with the radius that counts */
/**
 * A place of a thing: when it was first heard, in seconds, and its height in metres, where known.
 * @typedef {Spot & { at: number, high: number }} Step
 */
/**
 * Once that a thing was within a checkpoint's circle: from when to when in seconds, how near it
 * came in metres, and whether a place within was heard, or the way alone leads through.
 * @typedef {{ checkpoint: number, thing: Thing, lap: number, came: number, went: number,
 *   metres: number, isHeard: boolean }} Visit
 */
/** No way leads between places so many seconds apart, as `--apart` has it without a word. */
const APART = 900;
/** So many radii away, coming back is another lap. */
const AWAY = 2;
/** Kilometres an hour on the ground, metres above which it may be more, seconds of a late copy. */
const FASTEST = 300, HIGH = 3000, LATE = 30;

const NUMBER = /^[-+]?[0-9]+(?:[.,][0-9]*)?$/, METRES = /^([0-9]+(?:[.,][0-9]*)?) ?(m|km)?$/;
const numberOf = (/** @type {string} */ text) =>
  NUMBER.test(text) ? Number(text.replace(",", ".")) : NaN;
/** Metres, also as 200m or 0.2km. */
function metresOf(/** @type {string} */ text) {
  const [, number, unit] = METRES.exec(text) || [];
  return number ? numberOf(number) * (unit === "km" ? 1000 : 1) : NaN;
}
/**
 * The fields of a line: by semicolons, tabs or commas, or else by blanks.
 * @param {string} line
 */
function fieldsOf(line) {
  const sign = [";", "\t", ","].find(it => line.split(it).length > 3);
  if (sign) return line.split(sign).slice(0, 4).map(it => it.trim().replace(/^"(.*)"$/, "$1"));
  const words = line.replace(/(\d) (?=k?m$)/, "$1").split(/\s+/);
  return words.length < 4 ? words : [words.slice(0, -3).join(" "), ...words.slice(-3)];
}
/** @param {string} line @returns {Checkpoint | null} */
function checkpointIn(line) {
  const [name, north, east, metres] = fieldsOf(line);
  const it = { name, north: numberOf(north || ""), east: numberOf(east || ""),
    metres: metresOf(metres || "") };
  return name && Math.abs(it.north) <= 90 && Math.abs(it.east) <= 180 && it.metres > 0 ? it : null;
}
/**
 * The lines of a text that say something, with their numbers, but for a head.
 * @param {string} text
 */
function linesIn(text) {
  const lines = text.replace(/^\ufeff/, "").split(/\r\n|\n|\r/)
    .map((it, n) => ({ n: n + 1, said: it.replace(/(^|\s)#.*/, "").trim() })).filter(it => it.said);
  if (lines.length && !/[0-9]/.test(lines[0].said) && fieldsOf(lines[0].said).length >= 4)
    lines.shift();
  return lines;
}
/** Whether a text that begins so has checkpoints. */
export const hasCheckpoints = (/** @type {string} */ begin) =>
  linesIn(begin).slice(0, 1).some(it => checkpointIn(it.said));
/**
 * The checkpoints of a text: a name, degrees north and east, metres, perhaps below a head line; an
 * empty list where it is none of these, and a throw at a line that is none among others.
 * @param {string} text
 */
export function readCheckpoints(text) {
  const lines = linesIn(text);
  return !hasCheckpoints(text) ? [] : lines.map(({ n, said }) => {
    const it = checkpointIn(said);
    if (!it) throw new Error(`line ${n} is no checkpoint, such as Tarn 54.5183 -3.5216 150`);
    return it;
  });
}
/**
 * Whether no way leads from a place to another, also if one was heard late.
 * @param {Step} a @param {Step} b
 */
const isTooFast = (a, b) => Math.max(a.high || 0, b.high || 0) <= HIGH &&
  metresBetween(a, b) / (Math.abs(b.at - a.at) + LATE) > FASTEST / 3.6;
/**
 * The runs of a thing's exact places, each but the last ended by a kill.
 * @param {Thing} thing
 */
function runsOf({ rows, placedBy }) {
  /** @type {Step[][]} */
  const runs = [[]];
  for (const k of placedBy) {
    const it = rows.record(k);
    if (rows.killed[k]) runs.push([]);
    else if (!Number(it.ambiguity || 0))
      runs[runs.length - 1].push({ north: rows.north[k], east: rows.east[k], at: rows.first[k],
        high: Number(it.altitude_m || 0) });
  }
  return runs;
}
/**
 * The way of a run. Of places too far from the one before, two that fit each other are where the
 * thing is now.
 * @param {Step[]} steps
 */
function wayOf(steps) {
  const way = /** @type {Step[]} */ ([]);
  let doubted = /** @type {Step | null} */ (null), wild = 0;
  for (const it of steps) {
    if (!way.length || !isTooFast(way[way.length - 1], it)) {
      wild += doubted ? 1 : 0;
      way.push(it);
      doubted = null;
    } else if (doubted && !isTooFast(doubted, it)) {
      way.push(doubted, it);
      doubted = null;
    } else {
      wild += doubted ? 1 : 0;
      doubted = it;
    }
  }
  return { way, wild: wild + (doubted ? 1 : 0) };
}
/**
 * The visits of a thing to a checkpoint, lap by lap.
 * @param {{ thing: Thing, ways: Step[][] }} of
 * @param {Checkpoint} at @param {number} checkpoint its number
 */
function visitsOf({ thing, ways }, at, checkpoint) {
  const done = /** @type {Visit[]} */ ([]);
  let isOpen = false;
  for (const way of ways)
    for (const [n, place] of way.entries()) {
      const last = way[n - 1], away = metresBetween(at, place);
      const isCut = !last || place.at - last.at > APART || isTooFast(last, place);
      const start = isCut ? place : last, found = chordOf(at, at.metres, start, place);
      if (found) {
        const time = place.at - start.at, went = start.at + found.leaves * time;
        if (!isOpen)
          done.push({ checkpoint, thing, lap: done.length + 1, metres: found.metres, went,
            came: start.at + found.enters * time, isHeard: false });
        isOpen = true;
        const now = done[done.length - 1];
        Object.assign(now, { went, metres: Math.min(now.metres, found.metres),
          isHeard: now.isHeard || away <= at.metres });
      }
      if (away > AWAY * at.metres) isOpen = false;
    }
  return done;
}
/**
 * The visits of all things, by checkpoint and moment; how many places are left out since nothing on
 * the ground reaches them; and of checkpoints that nobody passed who was nearest.
 * @typedef {{ visits: Visit[], wild: number,
 *   near: { checkpoint: number, name: string, metres: number }[] }} Passed
 */
/**
 * @param {Thing[]} things @param {Checkpoint[]} points
 * @returns {Generator<unknown, Passed>}
 */
export function* passedOf(things, points) {
  const visits = /** @type {Visit[]} */ ([]), near = points.map((_, checkpoint) =>
    ({ checkpoint, name: "", metres: Infinity }));
  let wild = 0;
  for (const thing of things) {
    const found = runsOf(thing).map(wayOf), ways = found.map(it => it.way);
    wild += found.reduce((sum, it) => sum + it.wild, 0);
    points.forEach((at, n) => {
      visits.push(...visitsOf({ thing, ways }, at, n));
      for (const it of ways.flat()) {
        const metres = metresBetween(at, it);
        if (metres < near[n].metres) Object.assign(near[n], { name: thing.label, metres });
      }
    });
    yield;
  }
  visits.sort((a, b) => a.checkpoint - b.checkpoint || a.came - b.came);
  const passed = new Set(visits.map(it => it.checkpoint));
  return { visits, wild, near: near.filter(it => it.name && !passed.has(it.checkpoint)) };
}
