import assert from "node:assert/strict";
import { test } from "node:test";
import "./document.js";
import { bounded } from "../../page/src/app/splitter.js";
import { degreesOf } from "../../page/src/geo/sphere.js";
import { TileSources } from "../../page/src/map/layers/tile-sources.js";
import { placeText, placeFacts, spotText } from "../../page/src/geo/coordinate-formats.js";
import { cornersIn, cornersOf } from "../../page/src/map/layers/image-overlay.js";
import { vectorOf } from "../../page/src/geo/sphere.js";

test("corners are read as they are written", () => {
  const spots = cornersOf(["54.6, -3.7", "54.6 -3.4", " 54.4;-3.7 "]).map(degreesOf);
  const near = [[54.6, -3.7], [54.6, -3.4], [54.4, -3.7]];
  assert.ok(spots.every((it, k) => it.every((value, n) => Math.abs(value - near[k][n]) < 1e-9)));
  const refused = (text, why) =>
    assert.throws(() => cornersOf(["54.6, -3.7", "54.6, -3.4", text]), why);
  for (const it of ["", "54.6", "a, b", "91, 0", "0, 181", "54.4, -3.7, 1"])
    refused(it, /written as/);
  refused("54.6, -3.7", /one line/);
  refused("54.6, -3.1", /one line/);
  refused("40, -3.7", /km apart/);
});
test("a world file has the corners of its picture", () => {
  // a pixel is 0.01 degrees; the middle of the first lies half of one beside the corner
  const text = "0.01\n0\n0\n-0.01\n-3.995\n54.995\n", size = { width: 100, height: 50 };
  assert.deepEqual(cornersIn(text, size), ["55, -4", "55, -3", "54.5, -4"]);
  // turned by a quarter
  assert.deepEqual(cornersIn("0 0.01 0.01 0 -3.995 54.005", size),
    ["54, -4", "55, -4", "54, -3.5"]);
  for (const it of ["", "1 2 3 4 5", "a b c d e f", "10 0 0 -10 460000 6040000"])
    assert.equal(cornersIn(it, size), null, it);
});
/** What is dropped: a picture, or its world file, whose upper left corner lies there. */
const file = (name, what) => Object.assign(new Blob([what]), { name });
const picture = name => file(name, Uint8Array.from([0x89, 80, 78, 71, 13, 10, 26, 10, 0, 0, 0, 0]));
const world = (name, north, east) =>
  file(name, `0.01\n0\n0\n-0.01\n${east + 0.005}\n${north - 0.005}\n`);
function grounds() {
  globalThis.createImageBitmap = async () => ({ width: 100, height: 50 });
  const tiles = { archives: new Map(), size: 0, damaged: new Set(), clear() {} };
  const images = { all: [] }, told = [];
  const page = { tell: text => told.push(text), paintSoon() {} };
  return { all: new TileSources({ tiles, images }, page), told, whereIs: () => images.all
    .map(it => [it.name, ...degreesOf(it.corners[0]).map(Math.round)].join(" ")).sort() };
}
const field = id => document.getElementById(id);
test("pictures that are dropped together lie each where its own world file says", async () => {
  const files = [world("A.pgw", 55, -4), picture("a.png"), world("b.pngw", 47, 10),
    picture("b.png")];
  for (const order of [[0, 1, 2, 3], [3, 1, 2, 0], [1, 3, 0, 2], [0, 2, 1, 3]]) {
    const { all, told, whereIs } = grounds();
    const taken = await Promise.all(order.map(k => all.take(files[k])));
    assert.deepEqual([taken, await all.take(file("a.txt", "x"))],
      [[true, true, true, true], false]);
    assert.deepEqual(whereIs(), ["a.png 55 -4", "b.png 47 10"]);
    assert.deepEqual([all.waiting, [...all.worlds], field("overlay").hidden], [[], [], true]);
    assert.ok(told.every(it => it === ""));
  }
});
test("of pictures without world files the corners are asked for, one after the other", async () => {
  const { all, whereIs } = grounds();
  await Promise.all(["a.png", "b.png"].map(it => all.take(picture(it))));
  for (const [name, ...corners] of [["b.png", "47, 10", "47, 11", "46, 10"],
    ["a.png", "55, -4", "55, -3", "54, -4"]]) {
    assert.deepEqual([field("overlay").hidden, field("overlay-name").textContent], [false, name]);
    // whoever types begins with the first corner
    assert.equal(document.activeElement, field("corner-0"));
    corners.forEach((it, k) => { field(`corner-${k}`).value = it; });
    all.lay();
  }
  assert.deepEqual([whereIs(), field("overlay").hidden], [["a.png 55 -4", "b.png 47 10"], true]);
});
test("an archive of tiles that is taken away is no longer said, nor painted", () => {
  const { all } = grounds();
  let paints = 0;
  all.paintSoon = () => { paints++; };
  all.tiles.archives.set("a.pmtiles", {});
  all.tiles.close = name => all.tiles.archives.delete(name);
  all.show();
  assert.deepEqual([field("own-map").textContent, paints], ["Own map: a.pmtiles.", 1]);
  all.close("a.pmtiles");
  assert.deepEqual([field("own-map").textContent, paints], ["", 2]);
});
test("a wrong world file refuses its own picture alone", async () => {
  const { all, whereIs } = grounds();
  await all.take(file("a.pgw", "no numbers"));
  await assert.rejects(all.take(picture("a.png")), /no six numbers/);
  await assert.rejects(all.take(file("a.pgw", "still none")), /no six numbers/);
  await Promise.all([all.take(picture("b.png")), all.take(world("b.pgw", 47, 10))]);
  assert.deepEqual([whereIs(), field("overlay-name").textContent], [["b.png 47 10"], "a.png"]);
  await all.take(world("a.pgw", 55, -4));
  assert.deepEqual(whereIs(), ["a.png 55 -4", "b.png 47 10"]);
  all.clear();
  assert.deepEqual(whereIs(), []);
});
test("places in each form, and in degrees near a pole", () => {
  const all = ["", "minutes", "utm", "mgrs", "locator"].map(form =>
    [placeText(54.5, -3.5, { form }), placeText(89, 10, { form })]);
  assert.deepEqual(all, [["54.5000, -3.5000", "89.0000, 10.0000"],
    ["54\u00b030.00\u2032N 003\u00b030.00\u2032W", "89\u00b000.00\u2032N 010\u00b000.00\u2032E"],
    ["30U 467619 6039269", "89.0000, 10.0000"], ["30U VF 67619 39269", "89.0000, 10.0000"],
    ["IO84gm", "JR59aa"]]);
  assert.equal(spotText(vectorOf(89, 10)).includes("\u00b7  \u00b7"), false);
  assert.deepEqual(placeFacts(89, 10).map(it => it[0]), ["place", "", "locator"]);
});
test("the size of the map has bounds", () => {
  assert.deepEqual([0, 160, 300.6, 1e9, NaN].map(it => bounded("high", it)),
    [160, 160, 301, 4000, null]);
  assert.deepEqual([24, 25, 60, 80].map(it => bounded("wide", it)), [25, 25, 60, 75]);
});
