// @ts-check
// Where the bytes of an input are: in memory, or in a large file, which is read when it is needed.

/** @typedef {Uint8Array | Blob} Source */
/**
 * A file of more bytes than `kept` isn't kept in memory, and after a run over more than `alone` a
 * worker is replaced; what is read so has no other run beside it. More than `together` are merged
 * part by part.
 */
export const limits = { kept: 2 ** 26, alone: 2 ** 26, together: 2 ** 30 };
export const GONE = "can't be read any more: it has changed, or is gone";

/** @param {Source} source */
export const sizeOf = source => source instanceof Blob ? source.size : source.length;
/** @param {Source[]} sources */
export const sizeOfAll = sources => sources.reduce((sum, it) => sum + sizeOf(it), 0);
/** @param {Source} source */
export async function bytesIn(source) {
  if (!(source instanceof Blob)) return source;
  const buffer = await source.arrayBuffer().catch(() => { throw new Error(GONE); });
  return new Uint8Array(buffer);
}
/**
 * Whether two sources have the same bytes; of two files it is enough that they were changed at the
 * same moment.
 * @param {Source} a @param {Source} b
 */
export function isSameSource(a, b) {
  if (sizeOf(a) !== sizeOf(b)) return false;
  if (a instanceof File && b instanceof File) return a.lastModified === b.lastModified;
  return a instanceof Uint8Array && b instanceof Uint8Array && a.every((it, k) => it === b[k]);
}
