// @ts-check
// Files that gzip packed, which may become far larger than they are: their beginning first. And
// what a page has packed in it.

import { fromBase64 } from "./base64.js";

/** An input has at most so many bytes. */
export const MOST = 2 ** 30;
export const TOO_LARGE = "can't be read: it has more than 1 GiB";

/**
 * The bytes of all parts, one after the other.
 * @param {Uint8Array[]} parts
 */
export function joined(parts) {
  const all = new Uint8Array(parts.reduce((sum, it) => sum + it.length, 0));
  let at = 0;
  for (const it of parts) {
    all.set(it, at);
    at += it.length;
  }
  return all;
}
/** @param {Blob} file */
export const unzipped = file => file.stream().pipeThrough(new DecompressionStream("gzip"));
/**
 * How an unpacked file begins, and what gives all of it; throws where it can't be unpacked, or
 * becomes larger than an input may be.
 * @param {ReadableStream<Uint8Array>} stream
 * @param {number} head so many bytes, if there are so many
 */
export async function beginningOf(stream, head, most = MOST) {
  const reader = stream.getReader();
  /** @type {Uint8Array[]} */
  const parts = [];
  let size = 0, isWhole = false;
  const readTo = async (/** @type {number} */ enough) => {
    while (!isWhole && size < enough) {
      const { done, value } = await reader.read().catch(() => {
        throw new Error("can't be read: gzip can't unpack it");
      });
      isWhole = done;
      if (value) size += parts.push(value) && value.length;
    }
  };
  const all = async () => {
    await readTo(most + 1);
    if (size <= most) return joined(parts);
    reader.cancel().catch(() => {});
    throw new Error(TOO_LARGE);
  };
  await readTo(head);
  return { head: joined(parts).subarray(0, head), all };
}
/**
 * What zlib packed.
 * @param {Uint8Array} bytes
 */
export async function inflated(bytes) {
  const stream = new Blob([bytes]).stream().pipeThrough(new DecompressionStream("deflate"));
  return new Uint8Array(await new Response(stream).arrayBuffer());
}
/**
 * The bytes that a text in base64 has packed.
 * @param {string} text
 */
export const unpacked = text => inflated(fromBase64(text.trim()));
