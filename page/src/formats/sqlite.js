// @ts-check
// A database file of SQLite, read by slices: rows by their number, and what an index finds
// (sqlite.org, Database File Format, 1.6 and 2). Nothing is written, and no journal is read.

/** @typedef {number | string | Uint8Array | null} Value */
/**
 * A page of a tree: where it begins in the file's bytes, its bytes, its kind, its cells.
 * @typedef {{ bytes: Uint8Array, view: DataView, kind: number, cells: number[],
 *   last: number }} Page
 */
/** @typedef {{ name: string, table: string, root: number, kind: string, sql: string }} Item */

const CUT = "is cut short", DAMAGED = "is damaged";
const faultOf = (/** @type {string} */ what) => new Error(`the database ${what}`);
const INDEX_INNER = 2, TABLE_INNER = 5, INDEX_LEAF = 10, TABLE_LEAF = 13;
/** So many pages stay in memory, and a tree is at most so high. */
const KEPT = 500, HIGHEST = 20;
/** The bytes of whole numbers, by their serial type. */
const SIZES = [0, 1, 2, 3, 4, 6, 8, 8, 0, 0];

/**
 * A number of up to nine bytes, and where it ends.
 * @param {Uint8Array} bytes
 * @param {number} at
 * @returns {[number, number]}
 */
export function varint(bytes, at) {
  let n = 0;
  for (let k = 0; k < 8; k++) {
    n = n * 128 + (bytes[at + k] & 127);
    if (bytes[at + k] < 128) return [n, at + k + 1];
  }
  return [n * 256 + bytes[at + 8], at + 9];
}
/**
 * A whole number of so many bytes, with its sign.
 * @param {Uint8Array} bytes
 */
function signed(bytes) {
  let n = bytes[0] > 127 ? -1 : 0;
  for (const it of bytes) n = n * 256 + it;
  return n;
}
/**
 * The values of a record.
 * @param {Uint8Array} bytes
 */
export function valuesOf(bytes) {
  let [end, at] = varint(bytes, 0), place = end;
  /** @type {Value[]} */
  const values = [];
  while (at < end) {
    let type;
    [type, at] = varint(bytes, at);
    const size = type < 12 ? SIZES[type] || 0 : Math.floor((type - 12) / 2);
    const own = bytes.subarray(place, place += size);
    if (type === 0) values.push(null);
    else if (type === 8 || type === 9) values.push(type - 8);
    else if (type === 7) values.push(new DataView(own.slice().buffer).getFloat64(0));
    else if (type < 12) values.push(signed(own));
    else values.push(type % 2 ? new TextDecoder().decode(own) : own);
  }
  return values;
}
/**
 * How a key lies to another, value by value: below 0, 0, or above.
 * @param {Value[]} key
 * @param {Value[]} other
 */
function order(key, other) {
  for (let k = 0; k < key.length; k++) {
    const a = key[k], b = other[k];
    if (a === b) continue;
    // numbers stand before texts
    if (typeof a !== typeof b) return typeof a === "number" ? -1 : 1;
    return /** @type {any} */ (a) < /** @type {any} */ (b) ? -1 : 1;
  }
  return 0;
}

/** A database, which is opened by `openSqlite`. */
export class Sqlite {
  /** @param {import("./sliced.js").Sliced} file @param {DataView} head */
  constructor(file, head) {
    this.file = file;
    this.size = head.getUint16(16) === 1 ? 65536 : head.getUint16(16);
    this.usable = this.size - head.getUint8(20);
    /** @type {Map<number, Promise<Uint8Array>>} */
    this.kept = new Map();
    /** @type {Item[]} */
    this.items = [];
  }
  /** @param {number} number from 1 on @returns {Promise<Uint8Array>} */
  bytes(number) {
    const { kept, size } = this, got = kept.get(number);
    if (got) return got;
    const [oldest] = kept.keys();
    if (kept.size >= KEPT) kept.delete(oldest);
    const read = this.file.slice((number - 1) * size, number * size).arrayBuffer().then(it => {
      if (number < 1 || it.byteLength < size) throw faultOf(CUT);
      return new Uint8Array(it);
    });
    kept.set(number, read);
    return read;
  }
  /** @param {number} number @returns {Promise<Page>} */
  async page(number) {
    const bytes = await this.bytes(number), view = new DataView(bytes.buffer);
    const head = number === 1 ? 100 : 0, kind = bytes[head];
    const isLeaf = kind === TABLE_LEAF || kind === INDEX_LEAF;
    if (!isLeaf && kind !== TABLE_INNER && kind !== INDEX_INNER)
      throw faultOf(DAMAGED);
    const begin = head + (isLeaf ? 8 : 12);
    const cells = Array.from({ length: view.getUint16(head + 3) }, (_, k) =>
      view.getUint16(begin + 2 * k));
    return { bytes, view, kind, cells, last: isLeaf ? 0 : view.getUint32(head + 8) };
  }
  /**
   * What a cell holds, of so many bytes from a place on, also where it goes on elsewhere.
   * @param {Page} page
   * @param {number} at
   * @param {number} size
   */
  async payload({ bytes, view, kind }, at, size) {
    const { usable } = this, isTable = kind === TABLE_LEAF;
    const most = isTable ? usable - 35 : Math.floor((usable - 12) * 64 / 255) - 23;
    if (size <= most) return bytes.subarray(at, at + size);
    const least = Math.floor((usable - 12) * 32 / 255) - 23;
    const fits = least + (size - least) % (usable - 4), own = fits <= most ? fits : least;
    const whole = new Uint8Array(size);
    whole.set(bytes.subarray(at, at + own));
    let next = view.getUint32(at + own);
    for (let done = own; done < size; done += usable - 4) {
      const more = await this.bytes(next);
      whole.set(more.subarray(4, 4 + Math.min(usable - 4, size - done)), done);
      next = new DataView(more.buffer).getUint32(0);
    }
    return whole;
  }
  /**
   * The row of a table by its number, or null.
   * @param {number} root
   * @param {number} row
   */
  async row(root, row) {
    for (let number = root, turn = 0; turn < HIGHEST; turn++) {
      const page = await this.page(number), { bytes, view, cells, kind } = page;
      if (kind === TABLE_LEAF) {
        for (const cell of cells) {
          const [size, at] = varint(bytes, cell), [id, begin] = varint(bytes, at);
          if (id === row) return valuesOf(await this.payload(page, begin, size));
        }
        return null;
      }
      const found = cells.find(cell => row <= varint(bytes, cell + 4)[0]);
      number = found === undefined ? page.last : view.getUint32(found);
    }
    return null;
  }
  /**
   * The number of the row that an index has for a key, or null.
   * @param {number} root
   * @param {Value[]} key
   */
  async find(root, key) {
    for (let number = root, turn = 0; turn < HIGHEST && number; turn++) {
      const page = await this.page(number), { bytes, view, cells, kind } = page;
      const inner = kind === INDEX_INNER ? 4 : 0;
      let low = 0, high = cells.length;
      while (low < high) {
        const middle = low + high >> 1, [size, at] = varint(bytes, cells[middle] + inner);
        const values = valuesOf(await this.payload(page, at, size)), way = order(key, values);
        if (way === 0) return /** @type {number} */ (values[key.length]);
        if (way < 0) high = middle;
        else low = middle + 1;
      }
      number = !inner ? 0 : low < cells.length ? view.getUint32(cells[low]) : page.last;
    }
    return null;
  }
  /**
   * The first or the last key of an index, or null where it is empty.
   * @param {number} root
   * @param {boolean} isLast
   */
  async end(root, isLast) {
    for (let number = root, turn = 0; turn < HIGHEST; turn++) {
      const page = await this.page(number), { bytes, view, cells, kind, last } = page;
      const cell = cells.at(isLast ? -1 : 0);
      if (kind === INDEX_LEAF && cell === undefined) return null;
      if (kind === INDEX_INNER) number = isLast || cell === undefined ? last : view.getUint32(cell);
      else if (cell !== undefined) {
        const [size, at] = varint(bytes, cell);
        return valuesOf(await this.payload(page, at, size));
      }
    }
    return null;
  }
  /**
   * Each row of a table. A page stands once in a tree, or one of few pages could go on for ever.
   * @param {number} root
   * @param {Set<number>} seen
   * @returns {AsyncGenerator<Value[]>}
   */
  async *rows(root, depth = 0, seen = new Set()) {
    if (depth > HIGHEST || seen.has(root)) throw faultOf(DAMAGED);
    seen.add(root);
    const page = await this.page(root), { bytes, view, cells, kind } = page;
    for (const cell of cells) {
      if (kind !== TABLE_LEAF) yield* this.rows(view.getUint32(cell), depth + 1, seen);
      else {
        const [size, at] = varint(bytes, cell);
        yield valuesOf(await this.payload(page, varint(bytes, at)[1], size));
      }
    }
    if (kind !== TABLE_LEAF) yield* this.rows(page.last, depth + 1, seen);
  }
}
/**
 * Opens a database, and reads what tables and indexes it has.
 * @param {import("./sliced.js").Sliced} file
 */
export async function openSqlite(file) {
  const head = new DataView(await file.slice(0, 100).arrayBuffer());
  if (head.byteLength < 100) throw faultOf(CUT);
  if (head.getUint32(56) > 1) throw faultOf("has its texts in UTF-16");
  const it = new Sqlite(file, head);
  for await (const [kind, name, table, root, sql] of it.rows(1))
    it.items.push({ kind: String(kind), name: String(name), table: String(table),
      root: Number(root), sql: String(sql ?? "") });
  return it;
}
