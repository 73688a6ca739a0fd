// @ts-check
// The maps that a reader brings to lie below all else: archives of tiles, and pictures of which
// three corners are said.

import { isPicture } from "../../formats/file-kinds.js";
import { openMbtiles } from "../../formats/mbtiles.js";
import { openPmtiles } from "../../formats/pmtiles.js";
import { cornersIn, cornersOf } from "./image-overlay.js";
import { byId } from "../../util/dom.js";
import { count, printable } from "../../util/text.js";

/** Files with the corners of a picture, in degrees. */
const WORLD = /\.(?:pgw|jgw|wld|pngw|jpgw|wpw)$/i;
const CORNERS = /** @type {const} */ (["corner-0", "corner-1", "corner-2"]);
/** A name without its ending, which a picture and its world file have in common. */
const stemOf = (/** @type {string} */ name) => name.replace(/\.[^.]*$/, "").toLowerCase();
/** @typedef {{ name: string, stem: string, picture: ImageBitmap }} Waiting a picture for corners */

/** Takes the maps that a reader brings, for the layers of tiles and of pictures. */
export class TileSources {
  /**
   * @param {{ tiles: import("./tile-layer.js").TileLayer,
   *   images: import("./image-overlay.js").ImageOverlays }} layers
   * @param {{ tell: (text: string, bad?: boolean) => void, paintSoon: () => void }} page
   */
  constructor({ tiles, images }, { tell, paintSoon }) {
    this.tiles = tiles;
    tiles.onDamage = () => this.show();
    this.images = images;
    this.tell = tell;
    this.paintSoon = paintSoon;
    /** @type {Waiting[]} those of the last one are asked for */
    this.waiting = [];
    /** @type {Map<string, string>} texts of world files that came before their pictures */
    this.worlds = new Map();
  }
  /**
   * Takes a file if it is a map of this kind; says whether it is. Throws where it is, but can't be
   * drawn.
   * @param {File} file
   */
  async take(file) {
    if (await this.open(file.name, file)) return true;
    const head = new Uint8Array(await file.slice(0, 16).arrayBuffer());
    if (isPicture(head)) return this.wait(file);
    if (!WORLD.test(file.name)) return false;
    this.takeWorld(stemOf(file.name), await file.slice(0, 1000).text());
    this.show();
    return true;
  }
  /**
   * Opens an archive of tiles; says whether it is one.
   * @param {string} name
   * @param {import("../../formats/sliced.js").Sliced} file
   */
  async open(name, file) {
    const head = new Uint8Array(await file.slice(0, 16).arrayBuffer());
    const begin = String.fromCharCode(...head);
    if (begin.startsWith("PMTiles")) this.tiles.open(name, await openPmtiles(file));
    else if (begin.startsWith("SQLite format 3")) this.tiles.open(name, await openMbtiles(file));
    else return false;
    this.show();
    return true;
  }
  /**
   * Takes an archive away.
   * @param {string} name
   */
  close(name) {
    this.tiles.close(name);
    this.show();
  }
  /**
   * Takes a picture, whose corners its world file has, or which are asked for.
   * @param {File} file
   */
  async wait(file) {
    const picture = await createImageBitmap(file).catch(() => {
      throw new Error("this browser can\u2019t unpack it, which is damaged or too large");
    });
    const stem = stemOf(file.name), world = this.worlds.get(stem);
    this.worlds.delete(stem);
    this.ask({ name: printable(file.name), stem, picture });
    if (world !== undefined) this.fillCorners(picture, world);
    return true;
  }
  /**
   * Takes the text of a world file, for its picture or until that comes.
   * @param {string} stem
   * @param {string} text
   */
  takeWorld(stem, text) {
    const of = this.waiting.find(it => it.stem === stem);
    if (!of) return this.worlds.set(stem, text);
    this.ask(of);
    return this.fillCorners(of.picture, text);
  }
  /**
   * Asks for the corners of a picture, before those of others that wait.
   * @param {Waiting} of
   */
  ask(of) {
    this.waiting = [...this.waiting.filter(it => it.name !== of.name), of];
    byId("overlay").hidden = false;
    byId("overlay-name").textContent = of.name;
    byId("adds").open = true;
    byId(CORNERS[0]).focus();
  }
  /**
   * Lays the picture that is asked for by a world file.
   * @param {ImageBitmap} picture
   * @param {string} text
   */
  fillCorners(picture, text) {
    const corners = cornersIn(text, picture);
    if (!corners) throw new Error("no six numbers in degrees");
    corners.forEach((it, k) => { byId(CORNERS[k]).value = it; });
    this.lay();
  }
  /** Lays the picture that is asked for below, by the corners that are written. */
  lay() {
    const last = this.waiting.at(-1), { images } = this;
    if (!last) return;
    const { name, picture } = last;
    try {
      const corners = cornersOf(CORNERS.map(it => byId(it).value));
      images.all = [...images.all.filter(it => it.name !== name), { name, picture, corners }];
    } catch (fault) {
      return this.tell(`${name}: ${/** @type {Error} */ (fault).message}`, true);
    }
    this.waiting.pop();
    byId("overlay").hidden = true;
    byId("adds").open = false;
    for (const it of CORNERS) byId(it).value = "";
    this.tell("");
    this.show();
    const next = this.waiting.at(-1);
    if (next) this.ask(next);
  }
  /** Takes all of them away. */
  clear() {
    this.tiles.clear();
    this.images.all = [];
    this.waiting = [];
    this.worlds.clear();
    byId("overlay").hidden = true;
    this.show();
  }
  /** Says which maps there are, and draws them. */
  show() {
    const { tiles, images } = this;
    const names = [...tiles.archives.keys(), ...images.all.map(it => it.name)].map(printable);
    if (tiles.size) names.push(count(tiles.size, "tile"));
    const own = names.length ? `Own map: ${names.join(", ")}.` : "", { size } = tiles.damaged;
    byId("own-map").textContent = size && own
      ? `${own} ${count(size, "tile")} of it can\u2019t be drawn, being no picture.` : own;
    this.paintSoon();
  }
}
