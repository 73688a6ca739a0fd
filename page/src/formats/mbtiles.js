// @ts-check
// MBTiles: the tiles of a web map in a database of SQLite, either in one table, or, where equal
// tiles are kept once, in two.

import { isPicture } from "./file-kinds.js";
import { openSqlite } from "./sqlite.js";

/** @typedef {import("./sqlite.js").Sqlite} Sqlite */
/** @typedef {import("./sqlite.js").Item} Item */

const KEY = ["zoom_level", "tile_column", "tile_row"];
/**
 * The words in the last brackets of how an index was made.
 * @param {string} sql
 */
const columnsIn = sql => (/\(([^()]*)\)[^()]*$/.exec(sql)?.[1] || "").toLowerCase()
  .match(/\w+/g) || [];
/**
 * The columns of a table, as it was made: what stands first in each part between commas.
 * @param {string} sql
 */
function columnsOf(sql) {
  const inside = sql.slice(sql.indexOf("(") + 1).replace(/\([^()]*\)/g, "");
  return inside.split(",").map(it => /\w+/.exec(it)?.[0].toLowerCase() || "");
}
/**
 * The index of a table by these columns; one that SQLite made of a table's own words has no others.
 * @param {Item[]} items
 * @param {string} table
 * @param {string[]} columns
 */
function indexOf(items, table, columns) {
  const own = items.find(it => it.kind === "table" && it.table === table)?.sql || "";
  const isOf = (/** @type {Item} */ it) => it.sql
    ? columns.every((name, k) => columnsIn(it.sql)[k] === name)
    : new RegExp(`\\b(primary\\s+key|unique)\\s*\\(\\W*${columns.join("\\W+")}`, "i").test(own);
  const found = items.find(it => it.kind === "index" && it.table === table && isOf(it));
  if (!found) throw new Error(`its table ${table} has no index by ${columns.join(", ")}`);
  return found.root;
}

/** The tiles of such a file, which is opened by `openMbtiles`. */
export class Mbtiles {
  /** @param {Sqlite} base */
  constructor(base) {
    const { items } = base, tables = new Map(items.filter(it => it.kind === "table")
      .map(it => [it.name.toLowerCase(), { ...it, columns: columnsOf(it.sql) }]));
    const [tiles, map, images] = ["tiles", "map", "images"].map(it => tables.get(it));
    this.base = base;
    this.least = 0;
    this.most = 22;
    this.tiles = tiles || map;
    this.images = tiles ? undefined : images;
    if (!this.tiles || !tiles && !images) throw new Error("it has no table of tiles");
    this.index = indexOf(items, this.tiles.name, KEY);
    this.imageIndex = this.images ? indexOf(items, this.images.name, ["tile_id"]) : 0;
  }
  /** Reads which levels there are, and whether the tiles are pictures. */
  async begin() {
    const [first, last] = await Promise.all([false, true].map(it => this.base.end(this.index, it)));
    if (!first || !last) throw new Error("it has no tiles");
    const [z, x, row] = first.map(Number);
    Object.assign(this, { least: z, most: Math.min(22, Number(last[0])) });
    const blob = await this.read(z, x, 2 ** z - 1 - row);
    const head = new Uint8Array(await (blob || new Blob()).slice(0, 12).arrayBuffer());
    if (!isPicture(head)) throw new Error("it has no pictures (PNG, JPEG, WebP), such as one of " +
      "vector tiles");
  }
  /**
   * The picture of a tile, or null where there is none. Rows count from the south.
   * @param {number} z
   * @param {number} x
   * @param {number} y
   */
  async read(z, x, y) {
    const { base, tiles, images } = this, key = [z, x, 2 ** z - 1 - y];
    const number = await base.find(this.index, key);
    if (number === null || !tiles) return null;
    const row = await base.row(tiles.root, number) || [];
    const data = row[tiles.columns.indexOf(images ? "tile_id" : "tile_data")];
    if (!images) return data instanceof Uint8Array ? new Blob([data]) : null;
    const image = await base.find(this.imageIndex, [data]);
    if (image === null) return null;
    const found = (await base.row(images.root, image) || [])[images.columns.indexOf("tile_data")];
    return found instanceof Uint8Array ? new Blob([found]) : null;
  }
}
/**
 * Opens a file of MBTiles; says why where its tiles can't be drawn.
 * @param {import("./sliced.js").Sliced} file
 */
export async function openMbtiles(file) {
  const tiles = new Mbtiles(await openSqlite(file));
  await tiles.begin();
  return tiles;
}
