import assert from "node:assert/strict";
import { setImmediate as pause } from "node:timers/promises";
import { test } from "node:test";
import { Projection } from "../../page/src/geo/projection.js";
import { drawAt, TileLayer } from "../../page/src/map/layers/tile-layer.js";

globalThis.devicePixelRatio = 1;
globalThis.createImageBitmap = async () => ({ width: 256, height: 256 });
const PEN = new Proxy({}, { get: () => () => {}, set: () => true });
/** A view in which tiles of level 12 are so many levels smaller than their pictures. */
function viewOf(width, height, out) {
  const view = Object.assign(new Projection(), { width, height });
  view.look(54.5, -3.5);
  const wide = 2 * Math.PI * Math.cos(54.5 * Math.PI / 180);
  return Object.assign(view, { scale: 256 * 2 ** (12 - out) / wide });
}
/** Paints until nothing is new; gives how often, and whether there were tiles. */
async function settled(tiles, view) {
  for (let paints = 1, isNew = true; ; paints++) {
    isNew = false;
    const some = tiles.paint({ pen: PEN, again: () => { isNew = true; } }, view) === "";
    for (let k = 0; k < 20; k++) await pause();
    if (!isNew || paints === 30) return [paints, some];
  }
}
function archive() {
  const read = [], tiles = new TileLayer();
  tiles.open("x", { least: 12, most: 16, read: async (...tile) => {
    read.push(tile.join());
    return new Blob(["p"]);
  } });
  return { tiles, read };
}

test("a picture is drawn by three corners, and so many pixels of the screen over its edge", () => {
  const drawn = (corners, over) => {
    const told = [], pen = { setTransform: (...of) => told.push(of),
      drawImage: (_, ...of) => told.push(of) };
    drawAt(pen, { width: 256, height: 128 }, corners, over);
    return told;
  };
  assert.deepEqual(drawn([[100, 50], [356, 50], [100, 178]], 1.5),
    [[1, 0, 0, 1, 100, 50], [0, 0, 257.5, 129.5]]);
  // half as large, and turned to the right
  assert.deepEqual(drawn([[100, 50], [100, 178], [36, 50]], 1.5),
    [[0, 0.5, -0.5, 0, 100, 50], [0, 0, 259, 131]]);
});
test("tiles are read once for a view, in a large window too, or are too many", async () => {
  for (const [width, height, out, isShown] of [[1280, 700, 0, true], [1280, 700, 1.9, true],
    [1920, 1000, 1, true], [1920, 1000, 1.9, false], [2560, 1400, 1.9, false]]) {
    const { tiles, read } = archive(), [paints, some] = await settled(tiles,
      viewOf(width, height, out));
    assert.deepEqual([paints <= 2, some], [true, isShown], `${width} ${out}`);
    assert.equal(read.length, new Set(read).size);
    assert.equal(read.length > 0, isShown);
  }
});
test("of tiles that are kept those go first that were drawn longest ago", async () => {
  const { tiles, read } = archive(), middle = viewOf(1280, 700, 1.6), arms = [];
  await settled(tiles, middle);
  for (const [right, down] of [[600, 0], [-600, 0], [0, 400], [0, -400], [600, 0]]) {
    const view = viewOf(1280, 700, 1.6), before = read.length;
    view.move(right, down);
    await settled(tiles, view);
    arms.push(read.length - before);
    tiles.paint({ pen: PEN, again() {} }, middle);
    await settled(tiles, middle);
    assert.equal(read.length - before, arms.at(-1), "the middle was read again");
  }
  assert.ok(new Set(read).size > 400 && arms.at(-1) > 0, `${arms}`);
});
test("a tile that comes later is drawn where its gap was seen", async () => {
  const tiles = new TileLayer(), view = viewOf(256, 256, 0);
  tiles.take({ z: 12, x: 0, y: 0 }, new Blob(["far away"]));
  assert.deepEqual(await settled(tiles, view), [1, false]);
  const [z, x, y] = [...tiles.made.keys()][0].split("/").map(Number);
  tiles.take({ z, x, y }, new Blob(["p"]));
  assert.deepEqual(await settled(tiles, view), [2, true]);
});
test("tiles that are no pictures are counted, and the page is told", async t => {
  const { createImageBitmap } = globalThis, tiles = new TileLayer();
  t.after(() => { globalThis.createImageBitmap = createImageBitmap; });
  globalThis.createImageBitmap = async () => { throw new Error("InvalidStateError"); };
  let told = 0;
  tiles.onDamage = () => { told++; };
  tiles.open("bad", { least: 12, most: 12, read: async () => new Blob(["no picture"]) });
  assert.deepEqual(await settled(tiles, viewOf(256, 256, 0)), [1, false]);
  assert.ok(tiles.damaged.size > 0);
  assert.equal(told, tiles.damaged.size);
  tiles.clear();
  assert.equal(tiles.damaged.size, 0);
});
test("a page that is drawn anew with other tiles of its own shows these", async () => {
  const tiles = new TileLayer(), view = viewOf(300, 200, 0), drawn = [];
  const { createImageBitmap } = globalThis;
  globalThis.createImageBitmap = async blob => ({ width: 256, height: 256, of: blob.size });
  let saved = 0;
  const pen = new Proxy({}, { set: () => true, get: (_, op) => (...of) => {
    if (op === "drawImage") drawn.push(of[0].of);
    saved += op === "save" ? 1 : op === "restore" ? -1 : 0;
  } });
  const paint = async () => {
    drawn.length = 0;
    for (let k = 0; k < 20; k++) {
      tiles.paint({ pen, again() {} }, view);
      assert.equal(saved, 0);
      await pause();
    }
    return new Set(drawn);
  };
  const keys = [];
  tiles.open("x", { least: 12, most: 12,
    read: async (...tile) => { keys.push(tile.join("/")); return null; } });
  await paint();
  tiles.close("x");
  for (const bytes of ["p", "pp"]) {
    tiles.carry(Object.fromEntries(keys.map(it => [it, btoa(bytes)])));
    assert.deepEqual([...await paint()].slice(-1), [bytes.length]);
  }
  globalThis.createImageBitmap = createImageBitmap;
});
