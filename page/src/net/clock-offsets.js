// @ts-check
// How receivers' clocks stand to each other, pair by pair: two wrong clocks don't hide one another.

import { eachSince } from "../util/tasks.js";
import { byLetters } from "../util/text.js";

/** @typedef {import("./rows.js").Rows} Rows */
/**
 * How far one clock is ahead of another, in seconds, by so many transmissions that both heard.
 * @typedef {{ a: string, b: string, by: number, of: number }} Pair
 */
/**
 * A receiver's clock: how far it is ahead of those that most receivers agree on, by so many
 * transmissions; or, where no two agree, how far from each other one.
 * @typedef {{ by: number, of: number, from: Pair[] }} Clock
 */
/**
 * Whether a clock is known to be wrong, and by how much.
 * @param {Clock | null} clock @param {number} gap
 * @returns {clock is Clock}
 */
export const isOff = (clock, gap) => clock !== null && Math.abs(clock.by) > gap;
/** Fewer transmissions than these say nothing of a clock. */
export const FEWEST = 2;

/**
 * The middle one of a list.
 * @param {number[]} list
 */
export function medianOf(list) {
  const sorted = [...list].sort((a, b) => a - b);
  return sorted.length ? sorted[sorted.length >> 1] : 0;
}

/** The differences of each pair of receivers that heard one transmission. */
class Differences {
  constructor() {
    /** @type {Map<string, Map<string, { list: number[], zeros: number }>>} */
    this.by = new Map();
  }
  /**
   * Names stand in order.
   * @param {string} a
   * @param {string} b
   */
  of(a, b) {
    let row = this.by.get(a);
    if (!row) this.by.set(a, row = new Map());
    let it = row.get(b);
    if (!it) row.set(b, it = { list: [], zeros: 0 });
    return it;
  }
  /** So many transmissions that both heard in one row, which is the same moment. */
  same(/** @type {string[]} */ names, /** @type {number} */ n) {
    for (const [k, a] of names.entries())
      for (const b of names.slice(k + 1)) this.of(...ordered(a, b)).zeros += n;
  }
  /** @param {string} a @param {string} b @param {number} by */
  add(a, b, by) {
    const [first, second] = ordered(a, b);
    this.of(first, second).list.push(first === a ? by : -by);
  }
  /**
   * The pairs by their names, in whatever order they were found.
   * @returns {Pair[]}
   */
  pairs() {
    const pairs = [];
    for (const [a, row] of this.by)
      for (const [b, { list, zeros }] of row)
        pairs.push({ a, b, by: middleOf(zeros, list), of: zeros + list.length });
    return pairs.sort((p, q) => byLetters(p.a, q.a) || byLetters(p.b, q.b));
  }
}
/** @param {string} a @param {string} b @returns {[string, string]} */
const ordered = (a, b) => a < b ? [a, b] : [b, a];
/**
 * The middle one of so many zeros and a list of others.
 * @param {number} zeros
 * @param {number[]} list
 */
function middleOf(zeros, list) {
  list.sort((a, b) => a - b);
  const below = list.filter(it => it < 0).length, middle = (zeros + list.length) >> 1;
  return middle < below ? list[middle] : middle < below + zeros ? 0 : list[middle - zeros];
}

/** More rows of one text than these have no pairs. */
const MOST = 8;
/**
 * The clocks of so many receivers are compared, since pairs grow by the square: of those that heard
 * most.
 */
export const MOST_COMPARED = 64;
/** After so many names that were looked at there is a step. */
const STEP = 4096;
/** @typedef {{ names: string[], heard: number }} List so many rows of a list of receivers */
/**
 * The receivers whose clocks are compared.
 * @param {List[]} heard
 */
export function comparedIn(heard) {
  /** @type {Map<string, number>} */
  const sums = new Map();
  for (const { names, heard: n } of heard)
    for (const it of names) sums.set(it, (sums.get(it) || 0) + n);
  const all = [...sums];
  if (all.length > MOST_COMPARED) all.sort(([a, m], [b, n]) => n - m || byLetters(a, b));
  return new Set(all.slice(0, MOST_COMPARED).map(([name]) => name));
}
/**
 * Rows by the first one that says the same, those that are wanted; `ends` has where a group ends.
 * @param {Rows} rows @param {number} since
 * @param {(k: number) => boolean} isWanted
 * @returns {Generator<unknown, { ends: Uint32Array, members: Uint32Array }>}
 */
function* gathered(rows, since, isWanted) {
  const { same } = rows;
  const ends = new Uint32Array(same.length);
  yield* eachSince(rows, since, k => { if (isWanted(k)) ends[same[k]]++; });
  let sum = 0;
  for (let k = 0; k < ends.length; k++) [ends[k], sum] = [sum, sum + ends[k]];
  const members = new Uint32Array(sum);
  yield* eachSince(rows, since, k => { if (isWanted(k)) members[ends[same[k]]++] = k; });
  return { ends, members };
}
/**
 * Says of two lists of names, by their numbers, whether no name is in both.
 * @param {string[][]} lists
 */
function apartIn(lists) {
  /** @type {Map<number, boolean>} */
  const known = new Map();
  /** @type {Set<string>[]} */
  const sets = [];
  const setOf = (/** @type {number} */ n) => sets[n] ||= new Set(lists[n]);
  return (/** @type {number} */ a, /** @type {number} */ b) => {
    const key = a * lists.length + b;
    let is = known.get(key);
    if (is === undefined) known.set(key, is = !lists[a].some(it => setOf(b).has(it)));
    return is;
  };
}
/**
 * Whether of lists of receivers, by their numbers, none has a name of another.
 * @param {ArrayLike<number>} lists
 * @param {(a: number, b: number) => boolean} isApart
 */
function areApart(lists, isApart) {
  for (let m = 0; m < lists.length; m++)
    for (let n = 0; n < m; n++) if (!isApart(lists[n], lists[m])) return false;
  return true;
}

/**
 * The pairs of receivers that heard the same transmissions, of those that are compared. What stands
 * in several rows with the same text, no receiver in two of them, was one transmission if clocks
 * are wrong.
 * @param {Rows} rows @param {number} since
 * @param {List[]} heard the rows of each list of receivers
 * @param {Set<string>} compared
 * @returns {Generator<unknown, Pair[]>}
 */
export function* pairsOf(rows, since, heard, compared = comparedIn(heard)) {
  const { same, first } = rows, all = new Differences(), { size } = compared;
  const kept = rows.lists.map(it => it.filter(name => compared.has(name)));
  for (const { names, heard: n } of heard) {
    if (names.length > 1) all.same(names.filter(it => compared.has(it)), n);
    if (size === MOST_COMPARED) yield;
  }
  const times = new Uint32Array(rows.length);
  yield* eachSince(rows, since, k => { times[same[k]]++; });
  // what is sent again and again has no partner that would be sure
  const isPaired = (/** @type {number} */ k) => times[same[k]] > 1 && times[same[k]] <= MOST;
  const { ends, members } = yield* gathered(rows, since, isPaired);
  const isApart = apartIn(rows.lists);
  for (let k = 0, looked = 0; k < rows.length; k++) {
    const end = ends[same[k]], begin = end - times[same[k]];
    if (++looked > STEP) yield looked = 0;
    if (!isPaired(k) || members[begin] !== k) continue;
    const group = members.subarray(begin, end), lists = group.map(it => rows.heard[it]);
    looked += lists.reduce((sum, it) => sum + rows.lists[it].length, 0);
    if (!areApart(lists, isApart)) continue;
    for (let n = 1; n < group.length; n++)
      for (let m = 0; m < n; m++) for (const a of kept[lists[m]])
        for (const b of kept[lists[n]]) all.add(a, b, first[group[m]] - first[group[n]]);
  }
  return all.pairs().filter(it => it.of >= FEWEST);
}

/**
 * The receivers in groups whose clocks agree, the largest first.
 * @param {Pair[]} pairs @param {number} gap
 */
function groupsOf(pairs, gap) {
  /** @type {Map<string, string[]>} */
  const groups = new Map();
  for (const { a, b } of pairs) for (const it of [a, b]) groups.set(it, groups.get(it) || [it]);
  for (const { a, b, by } of pairs) {
    const one = /** @type {string[]} */ (groups.get(a)), other = groups.get(b);
    if (Math.abs(by) > gap || one === other) continue;
    const both = [...one, .../** @type {string[]} */ (other)];
    for (const it of both) groups.set(it, both);
  }
  return [...new Set(groups.values())].sort((a, b) => b.length - a.length);
}
/**
 * Each receiver's clock. Where more receivers agree than in any other group, theirs is the time.
 * @param {Pair[]} pairs @param {number} gap @returns {Map<string, Clock>}
 */
export function clocksOf(pairs, gap) {
  const groups = groupsOf(pairs, gap), names = groups.flat();
  const right = groups.length === 1 || groups[0]?.length > groups[1]?.length ? groups[0] : null;
  /** How far a pair says that a receiver is ahead. */
  const ahead = (/** @type {Pair} */ it, /** @type {string} */ name) =>
    it.a === name ? it : { a: it.b, b: it.a, by: -it.by, of: it.of };
  return new Map(names.map(name => {
    const own = pairs.filter(it => it.a === name || it.b === name).map(it => ahead(it, name));
    const beside = own.filter(it => !right || right.includes(it.b));
    const from = right ? [] : own.filter(it => Math.abs(it.by) > gap);
    const by = medianOf(beside.map(it => it.by));
    return [name, { by: right ? by : NaN,
      of: beside.reduce((sum, it) => sum + it.of, 0), from }];
  }));
}
