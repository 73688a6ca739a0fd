import assert from "node:assert/strict";
import { test } from "node:test";
import { open, pen, skip } from "./window.js";
import { netOfLines, place, row, SETTINGS } from "./tables.js";
import { Projection } from "../../page/src/geo/projection.js";
import { vectorOf } from "../../page/src/geo/sphere.js";
import { inOrder, makeLayers } from "../../page/src/app/map-layers.js";
import { CoastLayer } from "../../page/src/map/layers/coast-layer.js";
import { isInView, line, trace } from "../../page/src/map/layers/drawing.js";
import { Writer } from "../../page/src/map/layers/halo-text.js";
import * as layer from "../../page/src/map/layers/layer.js";
import { Graticule } from "../../page/src/map/layers/graticule.js";
import { ImageOverlays } from "../../page/src/map/layers/image-overlay.js";
import { VectorOverlays } from "../../page/src/map/layers/vector-overlay.js";
import { byColour, rankOf } from "../../page/src/map/mark.js";
import { MarkPainter } from "../../page/src/map/markers.js";
import { NetMap } from "../../page/src/map/map.js";
import { scaleBar } from "../../page/src/map/scale-bar.js";
import { colourOf, TRACKS } from "../../page/src/map/colours.js";
import { MANY, Tracks } from "../../page/src/map/tracks.js";
import { markOf, symbolOf } from "../../page/src/map/symbols.js";
import { roundUp } from "../../page/src/util/numbers.js";

if (!skip) open(null);
const COLOURS = Object.fromEntries(["paper", "sheet", "ink", "soft", "line", "bad", "land",
  "shore"].map(it => [it, it]));
const contextOf = (of = {}) => ({ pen, colours: COLOURS, writer: new Writer(pen, COLOURS),
  settings: SETTINGS, again() {}, note: "", ...of });
function viewOf(north = 54.5, east = -3.5, scale = 60000) {
  const view = Object.assign(new Projection(), { width: 600, height: 400 });
  view.look(north, east);
  return Object.assign(view, { scale });
}
/** What a run tells the pen. */
function told(run) {
  pen.calls.length = 0;
  const said = run();
  // what is set for a while is taken back, so that nothing else is painted so
  assert.equal(pen.of("save").length, pen.of("restore").length);
  assert.deepEqual(pen.of("setLineDash").at(-1)?.args ?? [[]], [[]]);
  return { said, calls: [...pen.calls], texts: pen.texts, of: op => pen.of(op).map(it => it.args) };
}

test("round numbers are 1, 2 or 5 times a power of ten", () => {
  assert.deepEqual([0.011, 0.02, 1, 1.5, 2.1, 4.9, 5.1, 99, 100, 101].map(roundUp),
    [0.02, 0.02, 1, 2, 5, 5, 10, 100, 100, 200]);
});
test("the layers are painted from the ground up", () => {
  const layers = makeLayers({ onPick() {}, onDense() {}, onMeasure() {} });
  assert.deepEqual(inOrder(layers).map(it => it.constructor.name).slice(0, 7), ["CoastLayer",
    "TileLayer", "ImageOverlays", "Graticule", "VectorOverlays", "StationLayer", "MeasureLayer"]);
  assert.deepEqual(inOrder(layers).slice(7), [layers.graticule.names, scaleBar]);
  assert.deepEqual(Object.keys(layer), []);
});
test("the scale is a bar in the corner, with what is said of the ground above it", () => {
  const { texts, of, calls } = told(() => scaleBar.paint(contextOf({ note: "rough coast" }),
    viewOf()));
  // 70 pixels are 7.4 km here, so the bar is 10 km long
  assert.deepEqual(texts.map(it => it[0]), ["10 km", "rough coast"]);
  assert.deepEqual(texts.map(([text, x, y]) => [x + 6 * text.length, y]), [[588, 373], [588, 356]]);
  const long = 10000 / 6371008.8 * 60000;
  assert.deepEqual(of("moveTo").map(([x, y]) => [Math.round(x), y]),
    [[Math.round(588 - long), 378]]);
  assert.deepEqual(of("lineTo").map(([x, y]) => [Math.round(x), y]),
    [[Math.round(588 - long), 384], [588, 384], [588, 378]]);
  assert.equal(calls.at(-1).op, "stroke");
  assert.equal(told(() => scaleBar.paint(contextOf(), viewOf())).texts.length, 1);
  assert.equal(told(() => scaleBar.paint(contextOf({ settings: { ...SETTINGS, miles: true } }),
    viewOf())).texts[0][0], "5 mi");
});
test("parallels and meridians have names at the edge, which don't run over one another", () => {
  const graticule = new Graticule(), view = viewOf();
  const { of } = told(() => graticule.paint(contextOf(), view));
  assert.ok(of("stroke").length > 4);
  const { texts } = told(() => graticule.names.paint(contextOf(), view));
  assert.ok(texts.some(it => it[0] === "54.5\u00b0N" && it[1] === 4));
  const meridians = texts.filter(it => it[0].endsWith("W"));
  assert.ok(meridians.length > 1 && meridians.every(it => it[2] === 395), `${texts}`);
  // each line of degrees goes through its own name's place
  const [, , y] = texts.find(it => it[0] === "54.5\u00b0N");
  view.put(vectorOf(54.5, view.middle[1] - (300 / 60000 * 180 / Math.PI) /
    Math.cos(54.5 * Math.PI / 180)));
  assert.ok(Math.abs(view.y - 3 - y) < 2, `${view.y} ${y}`);
});
test("a course is lines and named points, those in view alone", () => {
  const vectors = new VectorOverlays();
  vectors.all = [{ lines: [Float64Array.from([...vectorOf(54.5, -3.5), ...vectorOf(54.6, -3.4)])],
    points: [{ vector: vectorOf(54.5, -3.5), name: "x".repeat(60) },
      { vector: vectorOf(10, 10), name: "far" }] }];
  const { texts, of, calls } = told(() => vectors.paint(contextOf(), viewOf()));
  assert.deepEqual(texts.map(([text, x, y]) => [text, Math.round(x), Math.round(y)]),
    [["x".repeat(40), 305, 214]]);
  assert.deepEqual(of("arc").map(it => it.map(Math.round)), [[300, 200, 3, 0, 7]]);
  assert.deepEqual([of("moveTo").length, of("lineTo").length], [1, 1]);
  const stroke = calls.find(it => it.op === "stroke");
  assert.deepEqual([stroke.lineWidth, stroke.globalAlpha, stroke.strokeStyle], [4, 0.35, "soft"]);
  assert.equal(calls.find(it => it.op === "fill").globalAlpha, 1);
  assert.deepEqual(vectors.places().map(it => it.length), [6, 3, 3]);
});
test("a line is broken where it leaves the map, and what is still isn't drawn", () => {
  const view = viewOf(0, 0, 1000), spots = list =>
    Float64Array.from(list.flatMap(([n, e]) => vectorOf(n, e)));
  const drawn = (list, of) => {
    const { of: op } = told(() => trace(pen, view, spots(list), of));
    return [op("moveTo").length, op("lineTo").length];
  };
  assert.deepEqual(drawn([[0, 0], [0, 5], [0, 10]]), [1, 2]);
  assert.deepEqual(drawn([[0, 0], [0, 0.01], [0, 10]]), [1, 1]);
  assert.deepEqual(drawn([[0, 0], [0, 5], [0, 10]], { breaks: k => k === 1 }), [2, 1]);
  assert.deepEqual(drawn([[0, 0], [0, 5], [0, 10]], { begin: 1 }), [1, 1]);
  // both ends on one side of the map, and the other side of the earth
  assert.deepEqual(drawn([[0, 40], [5, 60]]), [2, 0]);
  assert.deepEqual(drawn([[0, 0], [0, 180], [0, 5]]), [3, 0]);
  assert.equal(isInView(view, vectorOf(0, 0)), true);
  assert.equal(isInView(view, vectorOf(0, 40)), false);
  const one = told(() => line(pen, view, spots([[0, 0], [0, 5]]))).calls.map(it => it.op);
  assert.deepEqual(one, ["beginPath", "moveTo", "lineTo", "stroke"]);
});
test("pictures lie on their corners, where these are on this side of the earth", { skip }, () => {
  const images = new ImageOverlays(), picture = { width: 100, height: 50 };
  const corners = [[55, -4], [55, -3], [54, -4]].map(it => vectorOf(...it));
  images.all = [{ name: "a", picture, corners }];
  const { of } = told(() => images.paint(contextOf(), viewOf(54.5, -3.5, 10000)));
  assert.equal(of("drawImage").length, 1);
  const [a, b, c, d, e, f] = of("setTransform")[0], view = viewOf(54.5, -3.5, 10000);
  corners.forEach((it, k) => {
    view.put(it);
    const [x, y] = [[0, 0], [100, 0], [0, 50]][k];
    assert.ok(Math.hypot(a * x + c * y + e - view.x, b * x + d * y + f - view.y) < 1e-6);
  });
  assert.equal(told(() => images.paint(contextOf(), viewOf(-54, 176))).of("drawImage").length, 0);
});
test("of the coast what the finest says counts", () => {
  const coast = new CoastLayer(), asked = [];
  coast.land.paint = (...of) => { asked.push(of.at(-1)); return "rough coast"; };
  coast.shore.paint = () => null;
  assert.equal(coast.paint(contextOf(), viewOf()), "rough coast");
  coast.shore.paint = () => "";
  coast.shore.of = {};
  assert.equal(coast.paint(contextOf(), viewOf()), "");
  assert.deepEqual(asked, [false, true]);
});
const marksOf = lines => netOfLines(lines).placed.map(thing =>
  ({ thing, place: thing.now, picked: false, colour: "t1", x: 100, y: 50 }));
test("marks lie above one another by what matters, and are of colours", () => {
  const [a, b, c] = marksOf([place(0, "Q1A", 54, -3),
    row("object", 1, "Q1A", { name: "O", latitude: 54, longitude: -3, symbol: "/-" }),
    row("item", 2, "Q1A", { name: "I", latitude: 54, longitude: -3, symbol: "/-" })]);
  const ranks = [a, b, c].map(it => [it.thing.kind, rankOf(it)]);
  assert.deepEqual(Object.fromEntries(ranks), { station: 3, object: 2, item: 1 });
  assert.equal(rankOf({ ...a, picked: true }), 5);
  assert.equal(rankOf({ ...a, place: { state: "killed" } }), 0);
  assert.equal(rankOf({ ...a, thing: { kind: "station", urgent: "emergency" } }), 4);
  const by = byColour([a, { ...b, colour: "t2" }, c]);
  assert.deepEqual([...by].map(([colour, list]) => [colour, list.length]), [["t1", 2], ["t2", 1]]);
});
test("a mark has its kind's shape, a beak where it goes, a ring of open digits", { skip }, () => {
  const context = contextOf(), view = viewOf();
  const painted = (fields, of = {}) => {
    const [mark] = marksOf([place(0, "Q1A", 54, -3, fields)]);
    const painter = new MarkPainter(pen, view, COLOURS, context.writer);
    return told(() => painter.paint({ ...mark, ...of }));
  };
  const plain = painted({ symbol: "/>" });
  assert.deepEqual(plain.of("arc").map(it => it.slice(0, 3)), [[100, 50, 9.5]]);
  assert.deepEqual([plain.of("rotate"), plain.texts, plain.of("setLineDash")], [[], [], []]);
  // a symbol is of 24 by 24, and stands within the mark, in paper; what is painted then doesn't
  const [[left, top]] = plain.of("translate"), [[wide, high]] = plain.of("scale");
  assert.deepEqual([left + 12 * wide, top + 12 * high].map(it => Math.round(it)), [100, 50]);
  assert.ok(wide === high && 12 * Math.SQRT2 * wide < 9.5 + 1);
  assert.deepEqual(plain.calls.filter(it => /^(save|scale|fill|restore)$/.test(it.op))
    .map(it => [it.op, it.fillStyle]), [["fill", "t1"], ["save", "t1"], ["scale", "t1"],
    ["fill", "paper"], ["restore", "paper"]]);
  const stroke = plain.calls.find(it => it.op === "stroke");
  assert.deepEqual([stroke.strokeStyle, stroke.lineWidth], ["paper", 1.5]);
  const picked = painted({}, { picked: true }).calls.find(it => it.op === "stroke");
  assert.deepEqual([picked.strokeStyle, picked.lineWidth], ["ink", 2.5]);
  const moving = painted({ course: 90, speed_knots: 10 });
  assert.deepEqual(moving.of("rotate"), [[Math.PI / 2]]);
  assert.deepEqual(moving.of("lineTo"), [[0, -18], [6, -8]]);
  assert.deepEqual(painted({ symbol: "A#" }).texts, [["A", 104, 45]]);
  // two digits left out: 926 m, which is 8.7 pixels here, and 13 at least
  const open = painted({ ambiguity: 2 });
  assert.deepEqual(open.of("arc")[0].slice(0, 3), [100, 50, 13]);
  // its ring alone is of dashes
  assert.deepEqual(open.of("setLineDash"), [[[3, 3]], [[]]]);
  const far = painted({ ambiguity: 3 }).of("arc")[0][2];
  assert.ok(Math.abs(far - 9260 / 6371008.8 * 60000) < 1e-6);
  const dots = told(() => new MarkPainter(pen, view, COLOURS, context.writer)
    .paintDots([{ colour: "t1", x: 10.4, y: 20.6 }]));
  assert.deepEqual(dots.of("fillRect"), [[7, 18, 6, 6]]);
});
test("an object is a square, and an item an arch as wide and as high", { skip }, () => {
  const painted = (kind, fields) => {
    const [mark] = marksOf([row(kind, 0, "Q1A", { name: "X", latitude: 54, longitude: -3,
      symbol: "/-", ...fields })]);
    const painter = new MarkPainter(pen, viewOf(), COLOURS, new Writer(pen, COLOURS));
    return told(() => painter.paint(mark));
  };
  assert.deepEqual(painted("object").of("rect"), [[91, 41, 18, 18]]);
  const item = painted("item");
  assert.deepEqual([item.of("arc")[0].slice(0, 3), item.of("lineTo").slice(0, 2)],
    [[100, 50, 9.5], [[109.5, 59], [90.5, 59]]]);
  assert.deepEqual([item.of("closePath").length, painted("object").of("closePath").length], [1, 0]);
});
test("a track fades, has arrows on its way, and is pale beside one that is picked", () => {
  const [mark] = marksOf([0, 1, 2, 3].map(k => place(600 * k, "Q1A", 54.5, -3.7 + k * 0.12)));
  const painted = (of, isAnyPicked) => told(() =>
    new Tracks(pen, viewOf(), { until: Infinity, isAnyPicked }).paint([{ ...mark, ...of }])).calls;
  const alphas = calls => calls.filter(it => it.op === "stroke")
    .map(it => Number(it.globalAlpha.toFixed(3)));
  assert.deepEqual(alphas(painted({}, false)), [0.35, 0.55, 0.75, 0.95]);
  assert.deepEqual(alphas(painted({}, true)), [0.105, 0.165, 0.225, 0.285]);
  const picked = painted({ picked: true }, true).filter(it => it.op === "stroke");
  assert.deepEqual(picked.map(it => [it.globalAlpha, it.lineWidth]),
    [0.35, 0.55, 0.75, 0.95].map(it => [it, 4]));
  // each arrow is filled, and points to the east
  const calls = painted({}, false), tips = calls.flatMap((it, k) =>
    it.op === "fill" ? [calls.slice(k - 3, k).map(one => [one.op, one.args[0]])] : []);
  assert.ok(tips.length > 1);
  for (const [[a, tip], [b, low], [c, high]] of tips)
    assert.ok(a === "moveTo" && b === "lineTo" && c === "lineTo" && tip > low && tip > high);
  assert.equal(pen.globalAlpha, 1);
});
test("of very many places each track is drawn, thin ones in short paths", () => {
  const at = (k, name) => place(k, name, 54.5 + k / 1e6, -3.5);
  // the last one has few places, which are left behind those of others
  const marks = marksOf([...Array.from({ length: MANY + 2 }, (_, k) => at(k, `Q${k % 99}`)),
    ...[0, 9000].map(k => at(k, "Q99"))]);
  assert.equal(marks.at(-1).thing.name, "Q99");
  const { calls } = told(() =>
    new Tracks(pen, viewOf(), { until: Infinity, isAnyPicked: false }).paint(marks));
  const ops = calls.map(it => it.op).filter(it => /^(beginPath|lineTo|stroke)$/.test(it)).join(" ");
  // no path that has lines is left without its stroke
  assert.doesNotMatch(ops, /lineTo(?: beginPath|$)/);
  const strokes = calls.filter(it => it.op === "stroke");
  assert.ok(strokes.length > marks.length / 2, `${strokes.length} of ${marks.length}`);
  assert.ok(strokes.every(it => it.lineWidth === 1 && it.globalAlpha === 0.4));
});
test("symbols have shapes and words, and marks for tables", { skip }, () => {
  const of = (table, code) => symbolOf({ table, code });
  assert.deepEqual(of("/", ">"), { shape: "car", overlay: "", word: "car" });
  assert.deepEqual(of("\\", "!"), { shape: "warning", overlay: "", word: "emergency" });
  assert.deepEqual(of("A", "#"), { shape: "star", overlay: "A", word: "digipeater A" });
  assert.deepEqual(of("/", "\u007f"), { shape: "dot", overlay: "", word: "" });
  const [mark] = marksOf([place(0, "Q1A", 54, -3)]), node = markOf(mark.thing, mark.place);
  assert.equal(node.getAttribute("class"), `mark t${colourOf("station Q1A")}`);
  assert.notEqual(node.innerHTML, markOf({ ...mark.thing, killed: true, key: "x" }, mark.place)
    .innerHTML);
  const colours = new Set(Array.from({ length: 200 }, (_, k) => colourOf(`station Q1A-${k}`)));
  assert.equal(colours.size, TRACKS);
});
test("the map knows layers alone: it paints, fits, asks and taps them", { skip }, () => {
  const asked = [], box = document.getElementById("map");
  const low = { leads: true, paint: ({ note }) => { asked.push(["low", note]); return "low"; },
    places: () => [Float64Array.from([...vectorOf(54.5, -3.5), ...vectorOf(54.6, -3.4)])],
    tap: () => { asked.push("tap low"); return true; }, tip: () => ["low"] };
  const mid = { paint: ({ note }) => { asked.push(["mid", note]); } };
  const high = { paint: ({ note }) => { asked.push(["high", note]); }, tap: () => false,
    tip: () => [], places: () => [Float64Array.from(vectorOf(54.7, -3.3))] };
  const map = new NetMap(box, [low, mid, high], { settings: () => SETTINGS, keys: {}, onFill() {},
    onFit: () => asked.push("fit"), onView() {}, onSpot: it => asked.push(it), onColours() {} });
  asked.length = 0;
  map.paint();
  assert.deepEqual(asked.splice(0), [["low", ""], ["mid", "low"], ["high", "low"]]);
  map.tap(1, 2);
  assert.deepEqual([asked.splice(0), map.tip(1, 2)], [["tap low"], ["low"]]);
  map.fit();
  assert.deepEqual([asked.splice(0), map.far, map.fitted], [["fit"], 0, true]);
  map.view.put(vectorOf(54.7, -3.3));
  assert.ok(map.view.x > 0 && map.view.x < 600 && map.view.y > 0 && map.view.y < 400);
  map.move(50, 0);
  assert.equal(map.fitted, false);
  map.refit();
  assert.deepEqual(asked.splice(0), []);
  map.point([300, 200]);
  assert.equal(asked.splice(0)[0].length, 3);
  map.look("54.5,-3.5,20");
  assert.ok(Math.abs(map.view.scale - 20 * 6371.0088) < 1e-6);
  map.reach(vectorOf(54.5, -3.5));
  assert.deepEqual(map.view.middle, [54.5, -3.5]);
  map.reach(vectorOf(10, 10));
  assert.deepEqual(map.view.middle.map(it => Math.round(it)), [10, 10]);
  // what lies within 20 pixels of the edge is brought to the middle
  for (const [x, y, isNear] of [[20.5, 200, true], [19.5, 200, false], [300, 20.5, true],
    [300, 19.5, false], [579.5, 200, true], [580.5, 200, false], [300, 379.5, true],
    [300, 380.5, false]]) {
    map.look("54.5,-3.5,20");
    map.reach(map.view.at(x, y));
    assert.equal(map.view.middle[0] === 54.5 && map.view.middle[1] === -3.5, isNear, `${x} ${y}`);
  }
  for (const [x, isNear] of [[20, false], [20.1, true]]) {
    map.fitted = true;
    const { put } = map.view;
    map.view.put = () => Object.assign(map.view, { x, y: 200 }) !== null;
    map.reach(vectorOf(54.5, -3.5));
    map.view.put = put;
    assert.equal(map.fitted, isNear);
  }
  map.look("10,10,20");
  map.look("x,1,2");
  assert.deepEqual(map.view.middle.map(it => Math.round(it)), [10, 10]);
});
