// @ts-check
// PMTiles, version 3: an archive of the tiles of a web map, which is read by slices. Of its
// tiles, pictures are drawn; it may pack its directories by gzip.

/** @typedef {{ id: number, offset: number, length: number, run: number }} Entry */
/** @typedef {{ offset: number, length: number }} Span */
/** @typedef {import("./sliced.js").Sliced} Sliced */

const HEADER = 127;
/** @type {Record<number, string>} */
const TYPES = { 2: "image/png", 3: "image/jpeg", 4: "image/webp", 5: "image/avif" };
const PLAIN = 1, GZIP = 2;
/** So many leaves stay in memory, and a way to a tile has so many directories at most. */
const KEPT = 64, MOST_DIRECTORIES = 4;

/**
 * The number of a tile: by levels, and within a level along Hilbert's curve.
 * @param {number} z
 * @param {number} x
 * @param {number} y
 */
export function numberOf(z, x, y) {
  let number = (4 ** z - 1) / 3;
  for (let side = 2 ** (z - 1); side >= 1; side /= 2) {
    const right = (x & side) > 0 ? 1 : 0, down = (y & side) > 0 ? 1 : 0;
    number += side * side * (3 * right ^ down);
    if (down) continue;
    if (right) [x, y] = [side - 1 - (x & side - 1), side - 1 - (y & side - 1)];
    [x, y] = [y, x];
  }
  return number;
}
/**
 * The entries of a directory.
 * @param {Uint8Array} bytes
 */
export function entriesOf(bytes) {
  let at = 0;
  const next = () => {
    let n = 0, by = 1;
    for (;;) {
      if (at >= bytes.length) throw new Error("a directory of the archive is cut short");
      const byte = bytes[at++];
      n += (byte & 127) * by;
      by *= 128;
      if (byte < 128) return n;
    }
  };
  const count = next();
  // an entry is of four numbers, each of a byte or more
  if (4 * count > bytes.length - at)
    throw new Error("a directory of the archive is cut short");
  /** @type {Entry[]} */
  const entries = Array.from({ length: count }, () => ({ id: 0, offset: 0, length: 0, run: 0 }));
  let id = 0;
  for (const it of entries) it.id = id += next();
  for (const it of entries) it.run = next();
  for (const it of entries) it.length = next();
  entries.forEach((it, k) => {
    const own = next(), before = entries[k - 1];
    it.offset = own || !before ? own - 1 : before.offset + before.length;
  });
  return entries;
}
/**
 * The last entry that isn't behind a tile.
 * @param {Entry[]} entries
 * @param {number} id
 */
function entryFor(entries, id) {
  let low = 0, high = entries.length;
  while (low < high) {
    const middle = low + high >> 1;
    if (entries[middle].id <= id) low = middle + 1;
    else high = middle;
  }
  return entries[low - 1] || null;
}

/** An archive, which is opened by `openPmtiles`. */
export class Pmtiles {
  /** @param {Sliced} file @param {DataView} header */
  constructor(file, header) {
    const number = (/** @type {number} */ at) => Number(header.getBigUint64(at, true));
    const span = (/** @type {number} */ at) => ({ offset: number(at), length: number(at + 8) });
    this.file = file;
    this.root = span(8);
    this.leaves = span(40);
    this.data = span(56);
    this.packing = header.getUint8(97);
    this.type = TYPES[header.getUint8(99)] || "";
    this.isPacked = header.getUint8(98) > PLAIN;
    this.least = header.getUint8(100);
    this.most = Math.min(22, header.getUint8(101));
    /** @type {Map<number, Promise<Entry[]>>} */
    this.kept = new Map();
  }
  /** @param {Span} span */
  async bytesOf({ offset, length }) {
    const slice = this.file.slice(offset, offset + length);
    if (slice.size < length) throw new Error("the archive is cut short");
    const bytes = await slice.arrayBuffer();
    if (this.packing !== GZIP) return new Uint8Array(bytes);
    const stream = new Blob([bytes]).stream().pipeThrough(new DecompressionStream("gzip"));
    return new Uint8Array(await new Response(stream).arrayBuffer());
  }
  /** @param {Span} span */
  entries(span) {
    const { kept } = this, got = kept.get(span.offset);
    if (got) return got;
    if (kept.size >= KEPT) kept.delete([...kept.keys()][0]);
    const read = this.bytesOf(span).then(entriesOf);
    kept.set(span.offset, read);
    return read;
  }
  /**
   * The picture of a tile, or null where there is none.
   * @param {number} z
   * @param {number} x
   * @param {number} y
   * @returns {Promise<Blob | null>}
   */
  async read(z, x, y) {
    const id = numberOf(z, x, y);
    let span = this.root;
    for (let turn = 0; turn < MOST_DIRECTORIES; turn++) {
      const it = entryFor(await this.entries(span), id);
      if (!it || it.run && id >= it.id + it.run) return null;
      if (it.run) {
        const offset = this.data.offset + it.offset;
        const bytes = await this.file.slice(offset, offset + it.length).arrayBuffer();
        return new Blob([bytes], { type: this.type });
      }
      span = { offset: this.leaves.offset + it.offset, length: it.length };
    }
    return null;
  }
}
/**
 * Opens an archive; says why where its tiles can't be drawn.
 * @param {Sliced} file
 */
export async function openPmtiles(file) {
  const head = new DataView(await file.slice(0, HEADER).arrayBuffer());
  if (head.byteLength < HEADER) throw new Error("the archive is cut short");
  if (head.getUint8(7) !== 3) throw new Error(`PMTiles of version ${head.getUint8(7)}, and not 3`);
  const archive = new Pmtiles(file, head);
  if (![PLAIN, GZIP].includes(archive.packing))
    throw new Error("its directories are packed by what no browser unpacks");
  if (!archive.type || archive.isPacked)
    throw new Error("it has no pictures (PNG, JPEG, WebP), such as one of vector tiles");
  await archive.entries(archive.root);
  return archive;
}
