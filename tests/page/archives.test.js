import assert from "node:assert/strict";
import { execFileSync, spawnSync } from "node:child_process";
import fs from "node:fs";
import os from "node:os";
import path from "node:path";
import { test } from "node:test";
import zlib from "node:zlib";
import "./document.js";
import { boxAround, carriedIn, nearIn } from "../../page/src/intake/embedded-tiles.js";
import { patience, ServedFile } from "../../page/src/intake/served-tiles.js";
import { openMbtiles } from "../../page/src/formats/mbtiles.js";
import { entriesOf, numberOf, openPmtiles } from "../../page/src/formats/pmtiles.js";
import { openSqlite, valuesOf, varint } from "../../page/src/formats/sqlite.js";
import { vectorOf } from "../../page/src/geo/sphere.js";
import { TileSources } from "../../page/src/map/layers/tile-sources.js";
import { tilesOf } from "../../page/src/map/layers/tile-layer.js";

const PNG = [0x89, 0x50, 0x4e, 0x47, 13, 10, 26, 10];
const tilesAt = (z, wide) => Array.from({ length: wide * wide }, (_, k) =>
  [z, k % wide, Math.floor(k / wide)]);

// ---- what a saved page carries

test("a saved page carries whole levels around the places, in so many bytes", async () => {
  const box = boxAround([{ north: 54.5, east: -3.5 }, { north: 54.6, east: -3.4 }]);
  assert.ok(box.north > 54.64 && box.south < 54.46 && box.west < -3.55 && box.east > -3.35);
  assert.equal(boxAround([]), null);
  assert.equal(boxAround([{ north: 0, east: 0 }, { north: 0, east: 3 }]), null);
  const near = Array.from({ length: 40 }, (_, k) => vectorOf(54.5 + k / 1000, -3.5));
  const found = nearIn([near, [vectorOf(10, 20)]].map(it => Float64Array.from(it.flat())));
  assert.deepEqual(found.map(it => [it.north.toFixed(3), it.east.toFixed(3)]),
    near.map((_, k) => [(54.5 + k / 1000).toFixed(3), "-3.500"]));
  // over the date line it is narrow
  const over = boxAround([{ north: 1, east: 179.99 }, { north: 1, east: -179.99 }]);
  assert.ok(over.east - over.west < 0.3 && over.east > 180);
  assert.deepEqual(tilesOf(over, 1, 9), ["1/1/0", "1/0/0"]);
  const picture = Uint8Array.from([...PNG, ...new Uint8Array(100)]), one = 4 * 36;
  const all = tilesOf(box, 9, 99), tiles = { least: 8, most: 10,
    find: async key => key.startsWith("10/") || key === all[0] ? null : new Blob([picture]) };
  const sizes = [8, 9].map(z => tilesOf(box, z, 99).length), before = one * sizes[0];
  const { tiles: carried, leftOut } = await carriedIn(tiles, box, before + one * (sizes[1] - 1));
  assert.equal(leftOut, null);
  assert.equal(Object.keys(carried).length, sizes[0] + sizes[1] - 1);
  assert.deepEqual([...Buffer.from(carried[all[1]], "base64")], [...picture]);
  const less = await carriedIn(tiles, box, before + one * (sizes[1] - 1) - 1);
  assert.deepEqual([Object.keys(less.tiles).length, less.leftOut], [sizes[0], 9]);
  // what is no picture isn't carried
  const bad = await carriedIn({ ...tiles, find: async () => new Blob(["text"]) }, box, 1e6);
  assert.deepEqual(bad, { tiles: {}, leftOut: null });
});

// ---- PMTiles (github.com/protomaps/PMTiles, spec/v3)

test("tiles are numbered as the specification has them", () => {
  for (const [z, x, y, number] of [[0, 0, 0, 0], [1, 0, 0, 1], [1, 0, 1, 2], [1, 1, 1, 3],
    [1, 1, 0, 4], [2, 0, 0, 5], [12, 3423, 1763, 19078479]])
    assert.equal(numberOf(z, x, y), number);
  const all = [...tilesAt(0, 1), ...tilesAt(1, 2), ...tilesAt(2, 4), ...tilesAt(3, 8)];
  assert.deepEqual(all.map(it => numberOf(...it)).sort((a, b) => a - b), all.map((_, k) => k));
  assert.equal(numberOf(22, 2 ** 22 - 1, 0), (4 ** 23 - 1) / 3 - 1);
});
const numbers = list => list.flatMap(it => {
  const bytes = [];
  for (; it > 127; it = Math.floor(it / 128)) bytes.push(it % 128 + 128);
  return [...bytes, it];
});
/** A directory as the specification writes it; where `joined`, an offset that goes on is 0. */
function directory(entries, joined = true) {
  const ids = entries.map((it, k) => it.id - (k ? entries[k - 1].id : 0));
  const offsets = entries.map((it, k) => {
    const before = entries[k - 1];
    return joined && before && it.offset === before.offset + before.length ? 0 : it.offset + 1;
  });
  return Uint8Array.from(numbers([entries.length, ...ids, ...entries.map(it => it.run),
    ...entries.map(it => it.length), ...offsets]));
}
test("directories are read as they are written", () => {
  const entries = [{ id: 0, run: 1, length: 9, offset: 0 },
    { id: 5, run: 3, length: 200, offset: 9 },
    { id: 300, run: 0, length: 7, offset: 2 ** 33 }];
  for (const joined of [true, false])
    assert.deepEqual(entriesOf(directory(entries, joined)), entries);
  // one in which each number has one byte
  const small = entries.slice(0, 1);
  assert.deepEqual([entriesOf(directory(small)), directory(small).length], [small, 5]);
  for (let cut = 0; cut < directory(entries).length; cut++)
    assert.throws(() => entriesOf(directory(entries).subarray(0, cut)), /cut short/);
});
test("a number of a database has seven bits of each byte, and of a ninth one eight", () => {
  const numbers = [[[5], 5], [[0x7f], 127], [[0x81, 0], 128], [[0x80, 1], 1],
    [[0x81, 0x80, 0], 16384], [[...Array(8).fill(0x80), 0xff], 255]];
  for (const [bytes, number] of numbers)
    assert.deepEqual(varint(Uint8Array.from([9, ...bytes, 9]), 1), [number, 1 + bytes.length]);
});
test("a record of a database has as many values as its head says", () => {
  // a head of five bytes: a small number, nothing, two letters and 1
  const head = [5, 1, 0, 17, 9], values = [251, 97, 98];
  assert.deepEqual(valuesOf(Uint8Array.from([...head, ...values])), [-5, null, "ab", 1]);
  assert.deepEqual(valuesOf(Uint8Array.from([...head, ...values, 7, 7])), [-5, null, "ab", 1]);
  assert.deepEqual(valuesOf(Uint8Array.of(1)), []);
});
/** An archive of pictures of levels 0 to 3 with leaves of ten, and a run of three equal ones. */
function archive({ type = 2, version = 3, packing = 2, packed = 1 } = {}) {
  const all = [0, 1, 2, 3].flatMap(z => tilesAt(z, 2 ** z)).map(it => numberOf(...it))
    .sort((a, b) => a - b).filter(it => it !== 84); // the last one isn't there
  const data = [];
  const entries = all.filter(it => it !== 21 && it !== 22).map(id => {
    const picture = [...PNG, id], offset = data.length;
    data.push(...picture);
    return { id, run: id === 20 ? 3 : 1, length: picture.length, offset };
  });
  const pack = bytes => packing === 2 ? zlib.gzipSync(bytes) : bytes;
  const leaves = [], root = [];
  for (let k = 0; k < entries.length; k += 10) {
    const leaf = pack(directory(entries.slice(k, k + 10)));
    root.push({ id: entries[k].id, run: 0, length: leaf.length, offset: leaves.length });
    leaves.push(...leaf);
  }
  const head = new DataView(new ArrayBuffer(127)), rootBytes = pack(directory(root));
  "PMTiles".split("").forEach((it, k) => head.setUint8(k, it.charCodeAt(0)));
  head.setUint8(7, version);
  const spans = [[8, 127, rootBytes.length], [40, 127 + rootBytes.length, leaves.length],
    [56, 127 + rootBytes.length + leaves.length, data.length]];
  for (const [at, offset, length] of spans) {
    head.setBigUint64(at, BigInt(offset), true);
    head.setBigUint64(at + 8, BigInt(length), true);
  }
  [1, packing, packed, type, 0, 3].forEach((it, k) => head.setUint8(96 + k, it));
  return new Blob([head.buffer, rootBytes, Uint8Array.from(leaves), Uint8Array.from(data)]);
}
test("the tiles of an archive are read by slices", async () => {
  for (const packing of [1, 2]) {
    const it = await openPmtiles(archive({ packing }));
    assert.deepEqual([it.least, it.most], [0, 3]);
    for (const [z, x, y] of [0, 1, 2, 3].flatMap(level => tilesAt(level, 2 ** level))) {
      const blob = await it.read(z, x, y), id = numberOf(z, x, y);
      if (id === 84) assert.equal(blob, null);
      else {
        const bytes = [...new Uint8Array(await blob.arrayBuffer())];
        assert.deepEqual(bytes, [...PNG, [21, 22].includes(id) ? 20 : id]);
        assert.equal(blob.type, "image/png");
      }
    }
    assert.equal(await it.read(4, 0, 0), null);
  }
});
test("an archive of a server is asked for by slices, again where it was away", async () => {
  const blob = archive(), asked = [], own = globalThis.fetch;
  patience.again = 1;
  let away = 1, isOther = false;
  globalThis.fetch = async (url, { headers }) => {
    const [, begin, last] = /^bytes=(\d+)-(\d+)$/.exec(headers.Range).map(Number);
    asked.push([begin, last]);
    if (away-- > 0) throw new TypeError("away");
    return new Response(isOther ? "x" : blob.slice(begin, last + 1), { status: 206 });
  };
  try {
    const it = await openPmtiles(new ServedFile("http://base/tiles/lakes.pmtiles", blob.size));
    assert.deepEqual(asked.slice(0, 2), [[0, 126], [0, 126]]);
    for (const [z, x, y] of tilesAt(2, 4)) {
      const found = await it.read(z, x, y);
      assert.deepEqual([...new Uint8Array(await found.arrayBuffer())],
        [...PNG, numberOf(z, x, y)]);
    }
    assert.ok(asked.every(([begin, last]) => last - begin < 1000));
    away = patience.tries;
    await assert.rejects(it.read(0, 0, 0), /away/);
    isOther = true;
    await assert.rejects(it.read(0, 0, 0), /something else/);
  } finally {
    globalThis.fetch = own;
  }
});
test("an archive that can't be drawn says why", async () => {
  const refused = (of, why) => assert.rejects(openPmtiles(of), why);
  await refused(archive({ type: 1 }), /no pictures/);
  await refused(archive({ packed: 2 }), /no pictures/);
  await refused(archive({ version: 2 }), /version 2/);
  await refused(archive({ packing: 3 }), /no browser/);
  await refused(archive().slice(0, 100), /cut short/);
  await refused(archive().slice(0, 130), /cut short/);
});

// ---- MBTiles, made by SQLite itself

const MAKE = `
import sqlite3, sys
path, form, size = sys.argv[1:4]
base = sqlite3.connect(path)
base.execute("PRAGMA page_size = " + size)
wide = min(97, int(size) // 100)
picture = lambda z, x, y: bytes([0x89, 80, 78, 71, z, x, y]) * (1 + wide * (x + y))
if form == "vector": picture = lambda z, x, y: bytes([31, 139])
base.execute("CREATE TABLE metadata (name text, value text)")
all = [(z, x, y) for z in range(2, 6) for x in range(2 ** z) for y in range(2 ** z) if x or y]
if form == "map":
    base.execute("CREATE TABLE map (zoom_level INTEGER, tile_column INTEGER, tile_row INTEGER, "
                 "tile_id TEXT, grid_id TEXT)")
    base.execute("CREATE TABLE images (tile_data blob, tile_id text)")
    base.execute("CREATE UNIQUE INDEX map_index ON map (zoom_level, tile_column, tile_row)")
    base.execute("CREATE UNIQUE INDEX images_id ON images (tile_id)")
    base.execute("CREATE VIEW tiles AS SELECT map.zoom_level, map.tile_column, map.tile_row, "
                 "images.tile_data FROM map JOIN images ON images.tile_id = map.tile_id")
    for z, x, y in all:
        name = f"{z}/{x}/{y}"
        base.execute("INSERT INTO map VALUES (?, ?, ?, ?, NULL)", (z, x, 2 ** z - 1 - y, name))
        base.execute("INSERT INTO images VALUES (?, ?)", (picture(z, x, y), name))
else:
    words = {"key": ", PRIMARY KEY (zoom_level, tile_column, tile_row)"}.get(form, "")
    name = "Tiles" if form == "capital" else "tiles"
    base.execute(f'CREATE TABLE "{name}" (zoom_level integer, tile_column integer, '
                 'tile_row integer, '
                 "tile_data blob" + words + ")")
    if form in ("index", "vector", "capital"):
        base.execute("CREATE UNIQUE INDEX tile_index on tiles (zoom_level, tile_column, tile_row)")
    for z, x, y in all if form != "empty" else []:
        base.execute("INSERT INTO tiles VALUES (?, ?, ?, ?)",
                     (z, x, 2 ** z - 1 - y, picture(z, x, y)))
base.commit()
`;
const hasPython = spawnSync("python3", ["-c", "import sqlite3"]).status === 0;
function made(form, size = 4096) {
  const folder = fs.mkdtempSync(path.join(os.tmpdir(), "mbtiles-")), name = path.join(folder, "it");
  execFileSync("python3", ["-c", MAKE, name, form, String(size)]);
  const bytes = fs.readFileSync(name);
  fs.rmSync(folder, { recursive: true });
  return bytes;
}
const blobOf = bytes => new Blob([bytes]);
/** What a database is read by, as of a Blob, whose slices are dear in Node. */
const slicesOf = bytes => ({ size: bytes.length, slice: (from, to) =>
  ({ arrayBuffer: async () => new Uint8Array(bytes.subarray(from, to)).buffer }) });
/** A picture of the largest in pages of a few KiB goes on in some four others. */
const wideIn = size => Math.min(97, Math.floor(size / 100));
for (const [form, size, of] of [["index", 4096, blobOf], ["key", 512, slicesOf],
  ["map", 1024, slicesOf], ["index", 65536, slicesOf], ["capital", 4096, slicesOf]])
  test(`tiles of MBTiles, ${form} in pages of ${size}`, { skip: !hasPython }, async () => {
    const it = await openMbtiles(of(made(form, size))), wide = wideIn(size);
    assert.deepEqual([it.least, it.most], [2, 5]);
    for (const [z, x, y] of [2, 3, 4, 5].flatMap(level => tilesAt(level, 2 ** level))) {
      const blob = await it.read(z, x, y);
      if (!x && !y) assert.equal(blob, null);
      else {
        const bytes = new Uint8Array(await blob.arrayBuffer()), count = 1 + wide * (x + y);
        assert.equal(bytes.length, 7 * count);
        assert.deepEqual([...bytes.subarray(-7)], [0x89, 80, 78, 71, z, x, y]);
      }
    }
    assert.equal(await it.read(1, 0, 0), null);
    assert.equal(await it.read(6, 63, 0), null);
  });
test("a database whose pages stand several times in one tree is damaged", async () => {
  // each page but the last leads to the next one, three times
  const size = 512, many = 13, bytes = new Uint8Array(size * many);
  const view = new DataView(bytes.buffer);
  view.setUint16(16, size);
  for (let n = 0; n < many; n++) {
    const head = n * size + (n ? 0 : 100), isLast = n === many - 1;
    bytes[head] = isLast ? 13 : 5;
    view.setUint16(head + 3, isLast ? 0 : 2);
    view.setUint32(head + 8, n + 2);
    for (const [k, at] of isLast ? [] : [[0, 400], [1, 410]]) {
      view.setUint16(head + 12 + 2 * k, at);
      view.setUint32(n * size + at, n + 2);
    }
  }
  await assert.rejects(openSqlite(new Blob([bytes])), /damaged/);
});
test("a database that can't be drawn says why", { skip: !hasPython }, async () => {
  const index = made("index");
  await assert.rejects(openMbtiles(blobOf(made("vector"))), /no pictures/);
  await assert.rejects(openMbtiles(blobOf(made("none"))),
    /no index by zoom_level, tile_column, tile_row/);
  await assert.rejects(openSqlite(blobOf(index.subarray(0, 99))), /cut short/);
  const torn = openMbtiles(blobOf(index.subarray(0, 40960)));
  await assert.rejects(torn.then(it => it.read(5, 31, 31)), /cut short/);
  await assert.rejects(openMbtiles(blobOf(index.subarray(0, 4096))), /cut short|damaged/);
});
test("an archive of tiles that is opened is said, and painted", async () => {
  let paints = 0;
  const tiles = { archives: new Map(), size: 0, damaged: new Set(),
    open(name, it) { this.archives.set(name, it); } };
  const sources = new TileSources({ tiles, images: { all: [] } },
    { tell() {}, paintSoon() { paints++; } });
  const said = () => [document.getElementById("own-map").textContent, paints];
  assert.equal(await sources.open("a.txt", new Blob(["x"])), false);
  assert.deepEqual(said(), ["", 0]);
  assert.equal(await sources.open("a.pmtiles", archive()), true);
  assert.deepEqual(said(), ["Own map: a.pmtiles.", 1]);
});
