import assert from "node:assert/strict";
import { test } from "node:test";
import zlib from "node:zlib";
import { degreesOf, RADIUS, vectorOf } from "../../page/src/geo/sphere.js";
import { Projection } from "../../page/src/geo/projection.js";
import { Land, Numbers } from "../../page/src/map/layers/coastline.js";
import { Shore, shoreOf } from "../../page/src/map/layers/fine-coastline.js";

/** Numbers as the tool packs them. */
const packed = numbers => Uint8Array.from(numbers.flatMap(it => {
  let n = it >= 0 ? 2 * it : -2 * it - 1;
  const bytes = [];
  for (; n > 127; n = Math.floor(n / 128)) bytes.push(n % 128 + 128);
  return [...bytes, n];
}));
// of a box from 4 W to 3 W and 54 N to 55 N its eastern half, with a lake
const SHORE = [10000, -40000, 540000, -30000, 550000, 80,
  4, -35000, 540000, 5000, 0, 0, 10000, -5000, 0,
  3, -32000, 545000, 1000, 0, 0, 1000];
const text = numbers => zlib.deflateSync(packed(numbers)).toString("base64");
/** A pen that keeps what it is told. */
function recorder() {
  const told = [], names =
    "save restore beginPath moveTo lineTo closePath clip fill stroke setLineDash".split(" ");
  const pen = Object.fromEntries(names.map(it => [it, (...of) => told.push([it, ...of])]));
  return { pen, told, of: name => told.filter(it => it[0] === name) };
}
const viewOf = (north, east, metres) => {
  const view = Object.assign(new Projection(), { width: 600, height: 400 });
  view.look(north, east);
  view.scale = RADIUS / metres;
  return view;
};
const COLOURS = { sheet: "sea", land: "land", shore: "line" };

test("numbers are unpacked as they were packed", () => {
  const numbers = [0, -1, 1, 63, 64, -64, -65, 2 ** 40, -(2 ** 40)];
  const read = new Numbers(packed(numbers));
  assert.deepEqual(numbers.map(() => read.next()), numbers);
  assert.equal(read.at, read.bytes.length);
});
test("rings of land are in view as far as they may reach into the map", () => {
  const land = new Land(), view = viewOf(54.5, -3.5, 50);
  const isInView = (x, y, wide) => {
    land.rings = [{ middle: vectorOf(...degreesOf(view.at(x, y))), wide: wide / view.scale }];
    return land.inView(view).length > 0;
  };
  // a corner is 361 pixels from the middle; a ring of 10 pixels reaches at most 16
  const spots = [[0, 0], [600, 0], [0, 400], [600, 400], [-70, 200], [670, 200], [300, -170],
    [300, 570]];
  assert.deepEqual(spots.map(it => isInView(...it, 10)), spots.map(() => true));
  const beside = [[-80, 200], [680, 200], [300, -180], [300, 580]];
  assert.deepEqual(beside.map(it => isInView(...it, 10)), beside.map(() => false));
  // one that is no pixel wide is never seen
  assert.equal(isInView(300, 200, 0.9), false);
});
test("a coast of the world is closed, and a rough one has its sides one by one", () => {
  const land = new Land(), corners = [[54.2, -4], [54.2, -3], [54.8, -3], [54.8, -4]];
  land.rings = [{ middle: vectorOf(54.5, -3.5), wide: 0.4,
    line: Float32Array.from(corners.flatMap(it => vectorOf(...it))),
    places: Int32Array.from(corners.flatMap(([n, e]) => [100 * e, 100 * n])) }];
  const namesOf = (metres, fills) => {
    const { pen, told } = recorder(), said = land.paint(pen, viewOf(54.5, -3.5, metres), COLOURS,
      fills);
    return [said, told.map(it => it[0]).join(" ")];
  };
  assert.deepEqual(namesOf(1000, true),
    ["", "beginPath moveTo lineTo lineTo lineTo closePath stroke fill"]);
  const sides = Array(4).fill("moveTo lineTo").join(" ");
  assert.deepEqual(namesOf(250, false),
    ["rough coast", `setLineDash beginPath ${sides} stroke setLineDash`]);
});
test("a fine coast has its box, its rings, and which of their sides are no coast", () => {
  const { box, off, rings } = shoreOf(packed(SHORE));
  assert.deepEqual([box.length, off], [3 * 64, 80]);
  const [north, east] = degreesOf([...box.slice(0, 3)]);
  assert.ok(Math.abs(north - 54) < 1e-5 && Math.abs(east + 4) < 1e-5);
  assert.deepEqual(rings.map(it => it.isSide), [[false, true, true, true], [false, false, false]]);
});
test("a fine coast is taken once, also where another comes, and is taken away", async () => {
  const shore = new Shore();
  assert.equal(await shore.read(text(SHORE)), true);
  assert.equal(await shore.read(text(SHORE)), false);
  assert.equal(shore.of.rings.length, 2);
  const late = shore.read(text(SHORE.slice(0, 6)));
  assert.equal(await shore.read(""), true);
  await late;
  assert.equal(shore.of, null);
  assert.equal(shore.paint(recorder().pen, viewOf(54.5, -3.5, 50), COLOURS), null);
});
test("a fine coast is drawn by how close one looks, and says so as all of the map", async () => {
  const shore = new Shore();
  await shore.read(text(SHORE));
  const tried = view => {
    const { pen, of } = recorder();
    return [shore.paint(pen, view, COLOURS), of("fill").length, of("stroke").length];
  };
  assert.deepEqual(tried(viewOf(54.5, -3.5, 50)), ["", 2, 1]);
  // each side of a ring that is a coast has its line: one, and the three of the lake
  const { pen, told } = recorder();
  shore.paint(pen, viewOf(54.5, -3.5, 500), COLOURS);
  const strokes = told.slice(told.findLastIndex(it => it[0] === "beginPath"));
  assert.deepEqual(["moveTo", "lineTo"].map(name => strokes.filter(it => it[0] === name).length),
    [4, 4]);
  assert.deepEqual(tried(viewOf(54.5, -3.5, 9.9)), ["rough coast", 1, 1]);
  assert.deepEqual(tried(viewOf(54.5, -3.5, 1.9)), ["", 1, 0]);
  // one that may be off by 200 m is rough sooner
  await shore.read(text(SHORE.with(5, 200)));
  assert.deepEqual(tried(viewOf(54.5, -3.5, 25.1)), ["", 2, 1]);
  assert.deepEqual(tried(viewOf(54.5, -3.5, 24.9)), ["rough coast", 1, 1]);
  await shore.read(text(SHORE));
  // the map shows more than the box, and nothing of it
  assert.deepEqual(tried(viewOf(54.5, -3.5, 500)), [null, 2, 1]);
  assert.deepEqual(tried(viewOf(54.05, -3.95, 50)), [null, 2, 1]);
  assert.deepEqual(tried(viewOf(50, 10, 50)), [null, 0, 0]);
  assert.deepEqual(tried(viewOf(-54.5, 176.5, 5000)), [null, 0, 0]);
});
