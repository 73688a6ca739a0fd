// @ts-check
// Parts of bytes, by numbers: the same part has one number, and none becomes a text before it is
// asked for.

// where a hash begins, so that nobody can send texts that all have the same one
const SEED = Math.floor(Math.random() * 2 ** 31);
const decoder = new TextDecoder("utf-8", { ignoreBOM: true });

/**
 * The text of a part of bytes.
 * @param {Uint8Array} bytes @param {number} begin @param {number} end
 */
export const textIn = (bytes, begin, end) => decoder.decode(bytes.subarray(begin, end));

/** @param {Uint8Array} bytes */
export const viewOf = bytes => new DataView(bytes.buffer, bytes.byteOffset, bytes.length);
/**
 * A number that equal parts of bytes have in common, and others hardly, in 32 bits.
 * @param {DataView} view of the bytes
 * @param {number} begin @param {number} end @param {number} own
 */
export function hashOf(view, begin, end, own) {
  let hash = SEED ^ own, at = begin;
  for (; at + 4 <= end; at += 4) {
    hash = Math.imul(hash ^ view.getInt32(at, true), 0x5bd1e995);
    hash ^= hash >>> 15;
  }
  for (; at < end; at++) hash = Math.imul(hash ^ view.getUint8(at), 0x5bd1e995);
  return hash ^ hash >>> 15;
}
/**
 * Whether two parts of bytes, each from one place to before another, are the same.
 * @param {DataView} view of the bytes
 * @param {number} a @param {number} aEnd @param {number} b @param {number} bEnd
 */
export function isSamePart(view, a, aEnd, b, bEnd) {
  if (aEnd - a !== bEnd - b) return false;
  for (; a + 4 <= aEnd; a += 4, b += 4) if (view.getInt32(a) !== view.getInt32(b)) return false;
  while (a < aEnd) if (view.getUint8(a++) !== view.getUint8(b++)) return false;
  return true;
}

/** Gives each of several parts of bytes a number, from 0 on. */
export class Parts {
  /** @param {Uint8Array} bytes */
  constructor(bytes) {
    this.bytes = bytes;
    this.view = viewOf(bytes);
    this.count = 0;
    // of each part where it begins and ends, and its hash
    this.all = new Int32Array(3 * 512);
    this.slots = new Int32Array(1024);
  }
  /**
   * The number of a part.
   * @param {number} begin @param {number} end
   */
  take(begin, end) {
    const { view, all, slots } = this, hash = hashOf(view, begin, end, 0);
    const mask = slots.length - 1;
    for (let slot = hash & mask; ; slot = (slot + 1) & mask) {
      const n = slots[slot] - 1, at = 3 * n;
      if (n < 0) return this.add(begin, end, hash, slot);
      if (all[at + 2] === hash && isSamePart(view, all[at], all[at + 1], begin, end)) return n;
    }
  }
  /** @param {number} begin @param {number} end @param {number} hash @param {number} slot */
  add(begin, end, hash, slot) {
    const n = this.count++, { all } = this;
    this.slots[slot] = n + 1;
    all[3 * n] = begin;
    all[3 * n + 1] = end;
    all[3 * n + 2] = hash;
    if (2 * this.count >= this.slots.length) this.widen();
    return n;
  }
  widen() {
    const slots = new Int32Array(2 * this.slots.length), mask = slots.length - 1;
    const all = new Int32Array(2 * this.all.length);
    all.set(this.all);
    for (let n = 0; n < this.count; n++) {
      let slot = all[3 * n + 2] & mask;
      while (slots[slot]) slot = (slot + 1) & mask;
      slots[slot] = n + 1;
    }
    Object.assign(this, { slots, all });
  }
  /** @param {number} n */
  text(n) {
    return textIn(this.bytes, this.all[3 * n], this.all[3 * n + 1]);
  }
  get texts() {
    return Array.from({ length: this.count }, (_, n) => this.text(n));
  }
}

/**
 * What each of few different parts stands for, worked out once.
 * @template T
 */
export class Words {
  /** @param {Uint8Array} bytes @param {(text: string) => T} valueOf */
  constructor(bytes, valueOf) {
    this.parts = new Parts(bytes);
    this.valueOf = valueOf;
    /** @type {T[]} */
    this.values = [];
  }
  /** @param {number} begin @param {number} end */
  of(begin, end) {
    const { parts, values } = this, n = parts.take(begin, end);
    if (n === values.length) values.push(this.valueOf(parts.text(n)));
    return values[n];
  }
}
