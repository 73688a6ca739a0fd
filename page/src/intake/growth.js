// @ts-check
// What is new in inputs since they were read: a log only grows, and what was read of it stays.

/** @typedef {import("../worker/sources.js").Source} Source */
const NOTHING = new Uint8Array();
const LINE = 10;

/**
 * Whether bytes go on with those that were there before.
 * @param {Uint8Array} before
 * @param {Uint8Array} now
 * @param {number} from what stands before this place isn't looked at
 */
export function goesOn(before, now, from = 0) {
  if (now.length < before.length) return false;
  for (let k = from; k < before.length; k++) if (before[k] !== now[k]) return false;
  return true;
}
/**
 * What stands in a source behind what was there before, whole lines; null where it is another one.
 * @param {Source} before
 * @param {Source} now
 */
function restOf(before, now) {
  if (before === now) return NOTHING;
  if (before instanceof Blob || now instanceof Blob) return null;
  const isWhole = before.length === 0 || before[before.length - 1] === LINE;
  return isWhole && goesOn(before, now) ? now.subarray(before.length) : null;
}
/**
 * What a book of sources has to be merged with so that it is that of those there are now; null
 * where one of them is gone, or is another one.
 * @template Key
 * @param {Map<Key, Source>} before
 * @param {Map<Key, Source>} now
 */
export function newIn(before, now) {
  /** @type {Source[]} */
  const found = [];
  for (const [key, it] of before) {
    const own = now.get(key), rest = own && restOf(it, own);
    if (!rest) return null;
    if (rest.length) found.push(rest);
  }
  for (const [key, it] of now) if (!before.has(key)) found.push(it);
  return found;
}
