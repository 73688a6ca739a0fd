// @ts-check
// The reader's own map: pictures of tiles of a web map, of files (Z/X/Y.png), of archives or of
// the page itself. Each is drawn by the affine map of three of its corners, which is below a pixel
// off up to some 100 km.

import { RADIAN, vectorOf } from "../../geo/sphere.js";
import { rangeOf } from "./graticule.js";

/** @typedef {import("../../geo/projection.js").Projection} Projection */
const FORM = /(?:^|\/)(\d{1,2})\/(\d+)\/(\d+)\.(?:png|jpe?g|webp)$/i;
/**
 * Which tile a file has, by its way in its folders.
 * @param {string} way
 */
export function tileOf(way) {
  const [, z, x, y] = (FORM.exec(way) || []).map(Number);
  return z <= 22 && x < 2 ** z && y < 2 ** z ? { z, x, y } : null;
}
/** How many rows of tiles lie above a place, of `n` rows. */
const rowOf = (/** @type {number} */ north, /** @type {number} */ n) =>
  (0.5 - Math.asinh(Math.tan(north * RADIAN)) / (2 * Math.PI)) * n;
/**
 * The tiles of a level in a box, by their ways; null where they are more than so many. The box's
 * east may lie beyond 180 degrees.
 * @param {{ south: number, north: number, west: number, east: number }} box
 * @param {number} z
 * @param {number} most
 */
export function tilesOf({ south, north, west, east }, z, most) {
  const n = 2 ** z, column = (/** @type {number} */ at) => Math.floor((at + 180) / 360 * n);
  const rows = [north, south].map(it =>
    Math.max(0, Math.min(n - 1, Math.floor(rowOf(Math.max(-85, Math.min(85, it)), n)))));
  const first = column(west), last = Math.min(column(east), first + n - 1), tiles = [];
  if ((last - first + 1) * (rows[1] - rows[0] + 1) > most) return null;
  for (let x = first; x <= last; x++)
    for (let y = rows[0]; y <= rows[1]; y++) tiles.push(`${z}/${((x % n) + n) % n}/${y}`);
  return tiles;
}
/** Degrees north of the upper edge of a row of tiles. */
const northOf = (/** @type {number} */ y, /** @type {number} */ z) =>
  Math.atan(Math.sinh(Math.PI * (1 - 2 * y / 2 ** z))) / RADIAN;
/** So many tiles stay unpacked, those that were drawn last. */
const KEPT = 400;
/**
 * Tiles that are read when they are asked for: their levels, and the picture of one.
 * @typedef {{ least: number, most: number,
 *   read: (z: number, x: number, y: number) => Promise<Blob | null> }} Archive
 */
/**
 * Draws a picture, of which three corners lie at these pixels: upper left, upper right, lower left.
 * @param {CanvasRenderingContext2D} pen
 * @param {ImageBitmap} picture
 * @param {number[][]} corners
 * @param {number} over so many pixels of the screen it is drawn too large, against seams
 */
export function drawAt(pen, picture, [[x0, y0], [x1, y1], [x2, y2]], over) {
  const { width, height } = picture, ratio = devicePixelRatio || 1;
  pen.setTransform(ratio * (x1 - x0) / width, ratio * (y1 - y0) / width,
    ratio * (x2 - x0) / height, ratio * (y2 - y0) / height, ratio * x0, ratio * y0);
  const right = over * width / (Math.hypot(x1 - x0, y1 - y0) || 1);
  const down = over * height / (Math.hypot(x2 - x0, y2 - y0) || 1);
  pen.drawImage(picture, 0, 0, width + right, height + down);
}
/** Tiles reach over those beside them by so many pixels. */
const OVER = 1.5;
/** @param {string} text in base64 */
const blobOf = text => new Blob([Uint8Array.from(atob(text), it => it.charCodeAt(0))]);

/** The reader's own map of tiles. */
export class TileLayer {
  constructor() {
    /** @type {Map<string, Blob>} */
    this.blobs = new Map();
    /** @type {Record<string, string>} those of the page itself, in base64 */
    this.carried = {};
    /** @type {Map<string, Archive>} */
    this.archives = new Map();
    /** @type {Map<string, ImageBitmap | null>} */
    this.made = new Map();
    /** @type {Set<string>} tiles that are there, and can't be drawn */
    this.damaged = new Set();
    /** Is called where such a tile is found. */
    this.onDamage = () => {};
    this.least = 99;
    this.most = 0;
  }
  /**
   * @param {{ z: number, x: number, y: number }} tile
   * @param {Blob} blob
   */
  take({ z, x, y }, blob) {
    const key = `${z}/${x}/${y}`;
    this.blobs.set(key, blob);
    // where it wasn't there before, that was kept too
    this.made.delete(key);
    this.damaged.delete(key);
    this.widen(z, z);
  }
  /**
   * @param {string} name
   * @param {Archive} archive
   */
  open(name, archive) {
    this.archives.set(name, archive);
    this.made.clear();
    this.damaged.clear();
    this.widen(archive.least, archive.most);
  }
  /**
   * Takes the tiles that the page itself has.
   * @param {Record<string, string>} tiles
   */
  carry(tiles) {
    if (tiles === this.carried) return;
    this.carried = tiles;
    this.made.clear();
    this.levels();
  }
  /** @param {string} name */
  close(name) {
    this.archives.delete(name);
    this.made.clear();
    this.levels();
  }
  /** @param {number} least @param {number} most */
  widen(least, most) {
    this.least = Math.min(this.least, least);
    this.most = Math.max(this.most, most);
  }
  /** The levels of all that is there. */
  levels() {
    Object.assign(this, { least: 99, most: 0 });
    for (const it of this.archives.values()) this.widen(it.least, it.most);
    for (const way of [...Object.keys(this.carried), ...this.blobs.keys()]) {
      const z = Number.parseInt(way, 10);
      this.widen(z, z);
    }
  }
  /** How many tiles the reader brought as files. */
  get size() {
    return this.blobs.size;
  }
  /** Takes away what the reader brought. */
  clear() {
    this.blobs.clear();
    this.archives.clear();
    this.made.clear();
    this.damaged.clear();
    this.levels();
  }
  /**
   * The packed picture of a tile; what the reader brought comes first.
   * @param {string} key
   */
  async find(key) {
    const [z, x, y] = key.split("/").map(Number), own = this.blobs.get(key);
    if (own) return own;
    for (const it of this.archives.values()) {
      const blob = z >= it.least && z <= it.most ? await it.read(z, x, y) : null;
      if (blob) return blob;
    }
    return Object.hasOwn(this.carried, key) ? blobOf(this.carried[key]) : null;
  }
  /**
   * The picture of a tile, once it is unpacked; `again` is called then.
   * @param {string} key
   * @param {() => void} again
   */
  pictureOf(key, again) {
    const { made } = this, got = made.get(key);
    made.delete(key);
    made.set(key, got ?? null);
    if (got !== undefined) return got;
    if (made.size > KEPT) made.delete([...made.keys()][0]);
    this.unpack(key).then(it => {
      if (!it || !made.has(key)) return;
      made.set(key, it);
      again();
    }, () => {
      // it is as one that isn't there
      this.damaged.add(key);
      this.onDamage();
    });
    return null;
  }
  /**
   * The picture of a tile, or null where there is none; fails where it can't be read or drawn.
   * @param {string} key
   */
  async unpack(key) {
    const blob = await this.find(key);
    return blob && createImageBitmap(blob);
  }
  /**
   * The size of the tiles that fits a view; none where the view is too wide.
   * @param {Projection} view
   */
  sizeFor(view) {
    const level = Math.cos(view.middle[0] * RADIAN);
    const wanted = Math.log2(2 * Math.PI * view.scale * level / 256);
    return wanted < this.least - 2 ? -1
      : Math.max(this.least, Math.min(this.most, Math.round(wanted)));
  }
  /**
   * Paints tiles; where there are some, nothing is said of the coast below them.
   * @param {import("./layer.js").Context} context
   * @param {Projection} view
   */
  paint({ pen, again }, view) {
    return this.paintTiles(pen, view, again) ? "" : undefined;
  }
  /**
   * Paints tiles, and says whether there were some.
   * @param {CanvasRenderingContext2D} pen
   * @param {Projection} view
   * @param {() => void} again
   */
  paintTiles(pen, view, again) {
    const z = this.least <= this.most ? this.sizeFor(view) : -1;
    if (z < 0) return false;
    const { low, high, west, east } = rangeOf(view), n = 2 ** z;
    if (east - west > 40) return false;
    const left = Math.floor((west + 180) / 360 * n), right = Math.floor((east + 180) / 360 * n);
    const top = Math.floor(rowOf(Math.min(85, high), n));
    const bottom = Math.floor(rowOf(Math.max(-85, low), n));
    // more than are kept would be read anew for each picture
    if ((right - left + 1) * (bottom - top + 1) > KEPT) return false;
    let painted = false;
    pen.save();
    for (let x = left; x <= right; x++)
      for (let y = top; y <= bottom; y++) {
        const picture = this.pictureOf(`${z}/${((x % n) + n) % n}/${y}`, again);
        if (picture) this.paintTile(pen, view, picture, { x, y, z });
        painted ||= picture !== null;
      }
    pen.restore();
    return painted;
  }
  /**
   * @param {CanvasRenderingContext2D} pen
   * @param {Projection} view
   * @param {ImageBitmap} picture
   * @param {{ x: number, y: number, z: number }} of
   */
  paintTile(pen, view, picture, { x, y, z }) {
    const corner = (/** @type {number} */ a, /** @type {number} */ b) => {
      view.put(vectorOf(northOf(y + b, z), (x + a) / 2 ** z * 360 - 180));
      return [view.x, view.y];
    };
    drawAt(pen, picture, [corner(0, 0), corner(1, 0), corner(0, 1)], OVER);
  }
}
