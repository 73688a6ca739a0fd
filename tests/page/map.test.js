import assert from "node:assert/strict";
import fs from "node:fs";
import { test } from "node:test";
import zlib from "node:zlib";
import { capOf, distance, vectorOf } from "../../page/src/geo/sphere.js";
import { locatorOf } from "../../page/src/geo/coordinate-formats.js";
import { fromBase85 } from "../../page/src/formats/base85.js";
import { NEAREST, Projection } from "../../page/src/geo/projection.js";
import { rangeOf } from "../../page/src/map/layers/graticule.js";
import { listenToMap, zoomOf } from "../../page/src/map/gestures.js";
import { crossings, ringsOf } from "../../page/src/map/layers/coastline.js";
import { StationLayer, StationPainter } from "../../page/src/map/station-layer.js";
import { nameOnMap, Room, Sides } from "../../page/src/map/label-placement.js";
import { tileOf } from "../../page/src/map/layers/tile-layer.js";

const line = spots => Float64Array.from(spots.flatMap(([north, east]) => vectorOf(north, east)));
const wheel = of => zoomOf({ deltaX: 0, deltaY: 0, deltaMode: 0, ctrlKey: false, ...of });

test("a wheel zooms by its size, and not sideways", () => {
  assert.ok(Math.abs(wheel({ deltaY: -100 }) - 1.2) < 1e-9);
  assert.ok(Math.abs(wheel({ deltaY: 100 }) * 1.2 - 1) < 1e-9);
  // thirty small steps of a trackpad are as one of their sum
  assert.ok(Math.abs(wheel({ deltaY: -4 }) ** 30 - wheel({ deltaY: -120 })) < 1e-9);
  assert.ok(Math.abs(wheel({ deltaY: -3, deltaMode: 1 }) - 1.2) < 1e-9);
  assert.equal(wheel({ deltaX: 40, deltaY: 3 }), 1);
  assert.ok(wheel({ deltaY: -1e9 }) < 2);
});
test("a mouse moves the map by its first button alone, and picks by it", () => {
  const runs = [], said = [];
  const listen = (kind, run) => runs.push({ kind, run });
  globalThis.addEventListener = listen;
  const node = { addEventListener: listen, style: {}, querySelector: () => ({}),
    getBoundingClientRect: () => ({ left: 2, top: 1 }) };
  listenToMap({ node, keys: {}, isFull: false, point() {}, tip: () => [], paintSoon() {}, turn() {},
    move: (...by) => said.push(by), tap: (...at) => said.push(at) });
  const say = (type, of) => runs.filter(it => it.kind === type).forEach(it =>
    it.run({ type, pointerId: 1, pointerType: "mouse", button: 0, ...of }));
  for (const button of [2, 1]) {
    say("pointerdown", { button, clientX: 5, clientY: 5 });
    say("pointermove", { clientX: 90, clientY: 5 });
  }
  assert.deepEqual(said, []);
  say("pointerdown", { clientX: 5, clientY: 5 });
  say("pointerup", { clientX: 6, clientY: 5 });
  say("pointerdown", { clientX: 5, clientY: 5 });
  say("pointermove", { clientX: 90, clientY: 7 });
  say("pointerup", { clientX: 90, clientY: 7 });
  say("pointermove", { clientX: 0, clientY: 0 });
  say("pointerdown", { pointerType: "pen", button: 5, clientX: 0, clientY: 0 });
  say("pointermove", { pointerType: "pen", clientX: 3, clientY: 0 });
  // a spot counts from the map's own corner
  assert.deepEqual(said, [[4, 4], [85, 2], [3, 0]]);
});
test("keys move the map by as much in each direction, zoom, fit and fill it", () => {
  const runs = [], said = [], tell = name => (...of) => { said.push([name, ...of]); };
  const listen = (kind, run) => runs.push({ kind, run });
  globalThis.addEventListener = listen;
  const node = { addEventListener: listen, style: {}, querySelector: () => ({}) };
  listenToMap({ node, keys: { m: tell("measure") }, isFull: false, paintSoon() {}, turn() {},
    move: tell("move"), zoom: tell("zoom"), fit: tell("fit"), fill: tell("fill") });
  const press = (key, of) => runs.filter(it => it.kind === "keydown").forEach(it =>
    it.run({ type: "keydown", key, target: node, preventDefault() {}, ...of }));
  const all = ["ArrowLeft", "ArrowRight", "ArrowUp", "ArrowDown", ..."+=-0fmx"];
  for (const key of all) press(key);
  assert.deepEqual(said, [["move", 60, 0], ["move", -60, 0], ["move", 0, 60], ["move", 0, -60],
    ["zoom", 1.3], ["zoom", 1.3], ["zoom", 1 / 1.3], ["fit"], ["fill", true], ["measure"]]);
  // what the browser does with a key isn't the map's
  for (const held of ["ctrlKey", "altKey", "metaKey"]) press("+", { [held]: true });
  assert.equal(said.length, 10);
});
test("what is under a pointer is told beside it, and no more where it leaves", () => {
  const runs = [], pointed = [], tip = { style: {}, hidden: true, nodes: [],
    replaceChildren(...nodes) { this.nodes = nodes; } };
  const listen = (kind, run) => runs.push({ kind, run });
  globalThis.addEventListener = listen;
  const node = { addEventListener: listen, style: {}, querySelector: () => tip,
    getBoundingClientRect: () => ({ left: 2, top: 1 }) };
  listenToMap({ node, keys: {}, isFull: false, view: { width: 600 }, paintSoon() {}, turn() {},
    point: at => pointed.push(at), tip: x => x < 500 ? [] : ["Q1A", "Q1B"] });
  const say = (type, of) => runs.filter(it => it.kind === type).forEach(it =>
    it.run({ type, pointerId: 1, pointerType: "mouse", ...of }));
  const told = () => [tip.hidden, tip.nodes, node.style.cursor];
  say("pointermove", { clientX: 102, clientY: 31 });
  assert.deepEqual(told(), [true, [], ""]);
  say("pointermove", { clientX: 592, clientY: 31 });
  assert.deepEqual(told(), [false, ["Q1A", "Q1B"], "pointer"]);
  // within the map
  assert.deepEqual(tip.style, { left: "430px", top: "44px" });
  say("pointerleave", {});
  assert.deepEqual([told()[0], pointed], [true, [[100, 30], [590, 30], null]]);
  // a finger can't hover, so its place stays
  say("pointerleave", { pointerType: "touch" });
  assert.equal(pointed.length, 3);
});
test("what is fitted has room beside it for names, and above it", () => {
  const view = Object.assign(new Projection(), { width: 600, height: 400 });
  const sizeOf = places => {
    view.fit([line(places)]);
    const { left, right, top, bottom } = view.box([line(places)]);
    return [right - left, bottom - top].map(Math.round);
  };
  assert.equal(sizeOf([[54.5, -3.6], [54.5, -3.4]])[0], 470);
  assert.equal(sizeOf([[54.4, -3.5], [54.6, -3.5]])[1], 310);
});
test("the map opens on what is near most, and not on a few places far away", () => {
  const near = line(Array.from({ length: 40 }, (_, k) => [54.5 + k / 1000, -3.5]));
  const far = line([[10, 20], [-40, 170]]), isIn = capOf([near, far]);
  assert.deepEqual([isIn(near, 0), isIn(near, 39), isIn(far, 0), isIn(far, 1)],
    [true, true, false, false]);
  // of a way of ten kilometres three quarters lie 3.75 km around its middle, and ten times as far
  // is near
  const isNear = kilometres => {
    const ways = [...Array(40).keys()].map(k => k / 3.9);
    const all = line([...ways, kilometres].map(it => [54 + it / 111.195, -3.5]));
    return capOf([all])(all, 40);
  };
  assert.deepEqual([-31, 41, -34, 44].map(isNear), [true, true, false, false]);
  const view = Object.assign(new Projection(), { width: 600, height: 400 });
  view.fit([near, far], isIn);
  assert.ok(distance(view.centre, vectorOf(54.52, -3.5)) < 1000);
  assert.ok(6371008.8 / view.scale * 600 < 20000);
  // a net all over the world stays whole
  const world = line([[54, -3], [40, -74], [-33, 151], [35, 139], [-23, -43], [64, -22]]);
  assert.ok([0, 1, 2, 3, 4, 5].every(k => capOf([world])(world, k)));
});
test("the place under the pointer stays there while one zooms, and the zoom has ends", () => {
  const view = Object.assign(new Projection(), { width: 600, height: 400, scale: 60000 });
  view.look(54.5, -3.5);
  for (const [x, y] of [[450, 100], [20, 390], [300, 200]])
    for (const by of [2, 0.5, 8]) {
      const under = view.at(x, y);
      view.zoom(by, x, y);
      view.put(under);
      assert.ok(Math.hypot(view.x - x, view.y - y) < 1, `${view.x} ${view.y}`);
    }
  view.zoom(1e-9);
  assert.equal(view.scale, 60);
});
test("a map of no places shows where the equator and Greenwich meet", () => {
  const view = Object.assign(new Projection(), { width: 600, height: 400 });
  view.look(54, -3);
  view.fit([]);
  assert.deepEqual(view.middle.map(it => Math.round(it) + 0), [0, 0]);
});
test("a view of the whole earth has all of its parallels and meridians", () => {
  const view = Object.assign(new Projection(), { width: 569, height: 462, scale: 100 });
  view.look(50, 10);
  assert.deepEqual(rangeOf(view), { low: -90, high: 90, west: -170, east: 190, wide: true });
  view.scale = 1e5;
  assert.equal(rangeOf(view).wide, false);
});
test("all meridians are in a view that has a pole, be it at its very edge", () => {
  const { at } = Object.assign(new Projection(), { width: 600, height: 400, scale: 1e5 });
  const isWideAt = (x, y) => rangeOf(Object.assign(new Projection(), { width: 600, height: 400,
    scale: 1e5, at, put([, , up]) { return up > 0.99 && Object.assign(this, { x, y }); } })).wide;
  for (const [x, y] of [[300, 200], [0, 200], [600, 200], [300, 0], [300, 400]])
    assert.equal(isWideAt(x, y), true, `${x} ${y}`);
  for (const [x, y] of [[-1, 200], [601, 200], [300, -1], [300, 401]])
    assert.equal(isWideAt(x, y), false, `${x} ${y}`);
});
test("who is in need has a whole mark among many dots", () => {
  const marksOf = (many, urgent) => Array.from({ length: many }, (_, k) => ({ x: 9 * k, y: 9,
    place: { state: "live" }, picked: false,
    thing: { key: `station Q1A-${k}`, label: "Q1A", urgent: k < urgent ? "emergency" : "" } }));
  const painted = (...of) => {
    const painted = { whole: 0, dots: 0 }, view = new Projection();
    const layer = { fan: { at: null }, placed: [], marks: marksOf(...of), isDense: false,
      sides: { by: new Map(), place: () => null } };
    const picture = new StationPainter(layer, { colours: {}, pen: {} }, view);
    picture.painter = { paint: () => painted.whole++,
      paintDots: list => { painted.dots += list.length; } };
    picture.writer = { widthOf: () => 40 };
    picture.paintMarks();
    return painted;
  };
  assert.deepEqual(painted(300, 2), { whole: 2, dots: 298 });
  assert.deepEqual(painted(300, 0), { whole: 0, dots: 300 });
  // nobody can fill the map
  assert.deepEqual(painted(3000, 2000), { whole: 0, dots: 3000 });
});
test("a large pile comes closer at a tap until that has an end, and then fans out", () => {
  const layer = new StationLayer({ onPick() {}, onDense() {} }), closer = [];
  const mapAt = scale => ({ view: { scale }, paintSoon() {}, closer: (...at) => closer.push(at) });
  layer.marks = Array.from({ length: 41 }, (_, k) => ({ x: 100, y: 100, picked: false,
    place: { vector: vectorOf(54.5, -3.5) }, thing: { key: `station Q1A-${k}` } }));
  layer.tap(100, 100, mapAt(NEAREST / 2));
  assert.deepEqual([closer, layer.fan.isOpen], [[[100, 100]], false]);
  layer.tap(100, 100, mapAt(NEAREST));
  assert.deepEqual([closer.length, layer.fan.keys.length], [1, 41]);
});
test("names stay on their side while the map moves, also above a lone mark", () => {
  const sides = new Sides(400, 300), name = { width: 60, reach: 10, isWanted: false };
  const marks = { a: [100, 100], b: [160, 100], c: [165, 112], d: [200, 150], e: [120, 110] };
  const sidesAt = (x, y) => {
    const room = new Room(400, 300, { x, y });
    for (const [left, top] of Object.values(marks))
      room.take(left + x - 10, top + y - 10, left + x + 10, top + y + 10);
    for (const [key, [left, top]] of Object.entries(marks))
      sides.place(key, { x: left + x, y: top + y }, name, room);
    return Object.fromEntries(sides.by);
  };
  const before = sidesAt(0, 0);
  for (let k = 1; k <= 40; k++) assert.deepEqual(sidesAt(k, k / 2), before);
  // above is free for a mark with others to its sides and below
  const room = new Room(400, 300), lone = new Sides(400, 300);
  room.take(90, 90, 110, 110);
  for (const [left, top] of [[115, 80], [10, 80]]) room.take(left, top, left + 70, top + 60);
  assert.deepEqual(lone.place("x", { x: 100, y: 100 }, { ...name, width: 10 }, room),
    { left: 95, base: 82 });
});
test("coasts: what is land, and what isn't", () => {
  const text = fs.readFileSync(new URL("../../page/assets/coast.txt", import.meta.url), "latin1");
  const rings = ringsOf(new Uint8Array(zlib.inflateSync(fromBase85(text.trim()))));
  const isLand = (north, east) =>
    rings.reduce((sum, it) => sum + crossings(it, north, east), 0) % 2 === 1;
  const land = [[48.8, 2.3], [40, -100], [-25, 135], [-85, 0], [-85, 170], [65, 178], [66, -172],
    [-10, -60], [55.9, -4]];
  const sea = [[0, 0], [0, -150], [85, 20], [-50, 0], [54, 3], [54.6, -4], [70, -178.3], [36, 18]];
  for (const [north, east] of land) assert.equal(isLand(north, east), true, `${north} ${east}`);
  for (const [north, east] of sea) assert.equal(isLand(north, east), false, `${north} ${east}`);
});
test("which tile a file of a web map is", () => {
  assert.deepEqual(tileOf("tiles/12/2007/1300.png"), { z: 12, x: 2007, y: 1300 });
  assert.deepEqual(tileOf("0/0/0.jpg"), { z: 0, x: 0, y: 0 });
  for (const it of ["12/4096/0.png", "12/1.png", "a/b/c.png", "1/0/0.txt", "23/0/0.png"])
    assert.equal(tileOf(it), null, it);
});
test("locators of known places", () => {
  // Munich and Newington (both of the literature on Maidenhead locators)
  assert.equal(locatorOf(48.14666, 11.60833), "JN58td");
  assert.equal(locatorOf(41.714775, -72.727260), "FN31pr");
});
test("a long name is short on the map, and has its call", () => {
  assert.equal(nameOnMap("Leader (Q1RUN-7)"), "Leader (Q1RUN-7)");
  assert.equal(nameOnMap("x".repeat(26)), "x".repeat(26));
  assert.equal(nameOnMap("Tactical name of forty letters, number 7 (Q1RUN-7)"),
    "Tactical nam\u2026 (Q1RUN-7)");
  assert.equal(nameOnMap("\\x00".repeat(9)), "\\x00".repeat(6) + "\\\u2026");
  // no letter is cut in two
  const face = "\u{1f600}";
  assert.equal(nameOnMap(face.repeat(20) + " (Q1A)"), face.repeat(12) + "\u2026 (Q1A)");
});
