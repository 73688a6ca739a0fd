import assert from "node:assert/strict";
import { test } from "node:test";
import { SAVES } from "../../page/src/formats/exports.js";
import { letterOf, printable, said } from "../../page/src/util/text.js";
import { message, moment, netOfLines, place, row, savedText } from "./tables.js";

test("places: a row for each, with what the table says, and no formula", () => {
  const net = netOfLines([place(0, "Q1A", 49.0583333, -72.0291667, { course: 88, speed_knots: 36,
    altitude_m: "376.1232", text: "=1+1", receivers: "RX1,RX2" }),
  place(1, "Q1C", 1, 2, { compressed: "yes", ambiguity: "", text: "-1.5" })]);
  assert.deepEqual(savedText("places (CSV)", net).split("\n"), [
    "kind,name,state,first,last,receivers,source,lat,lon,ambiguity,symbol,course,speed_knots," +
      "altitude_m,comment",
    `station,Q1A,live,${moment(0)},${moment(0)},RX1 RX2,Q1A,49.0583333,-72.0291667,0,/>,88,36,` +
      "376.1232,'=1+1",
    `station,Q1C,live,${moment(1)},${moment(1)},RX1,Q1C,1,2,c,/>,,,,-1.5`, ""]);
});
test("no text is a formula after blanks or in wide letters either", () => {
  for (const text of ["\uff1d1", "\u3000=1", "\u00a0+1", "\uff20A"])
    assert.ok(savedText("messages (CSV)", netOfLines([], [message("Q1A", "Q1B", text, "x", 0)]))
      .includes(`,'${text},`), text);
});
test("messages: in the table's states, bulletins too", () => {
  const net = netOfLines([], [message("Q1A", "Q1B", "hi", "acknowledged", 5, { id: "7" }),
    message("Q1A", "BLN1", "' =2", "unnumbered", 4),
    message("Q1A", "BLN2", "\\xef\\xbc\\x9d1", "unnumbered", 6)]);
  assert.deepEqual(savedText("messages (CSV)", net).split("\n"), [
    "time,from,number,to,message,state", `${moment(4)},Q1A,,BLN1,'' =2,unnumbered`,
    `${moment(5)},Q1A,7,Q1B,hi,acknowledged`, `${moment(6)},Q1A,,BLN2,'\uff1d1,unnumbered`, ""]);
});
test("messages: with names in columns of their own, where the roster has some", () => {
  const net = netOfLines([], [message("Q1A-7", "Q1B", "hi", "unanswered", 5, { id: "7" })]);
  const own = { at: Date.UTC(2024, 5, 21, 18) / 1000, from: "Q1A-7", to: "CP1", id: "", text: "x" };
  const saved = list =>
    savedText("messages (CSV)", net, {}, { lines: [own], list }).split("\n");
  const name = (call, said) => ({ call, name: said, group: "", bib: "" });
  assert.deepEqual(saved([name("Q1A-*", "=Leader"), name("Q1C", "")]), [
    "time,from,number,to,message,state,from_name,to_name", `${moment(0)},Q1A-7,,CP1,x,own,,`,
    `${moment(5)},Q1A-7,7,Q1B,hi,unanswered,'=Leader,`, ""]);
  assert.deepEqual(saved([name("Q1A-*", "")]), ["time,from,number,to,message,state",
    `${moment(0)},Q1A-7,,CP1,x,own`, `${moment(5)},Q1A-7,7,Q1B,hi,unanswered`, ""]);
});
test("a track over the date line is cut there", () => {
  const net = netOfLines([place(0, "Q1A", 0, 179.5), place(9, "Q1A", 0, -179.5)]);
  const geojson = savedText("places and tracks (GeoJSON)", net);
  assert.deepEqual(JSON.parse(geojson).features.at(-1).geometry.coordinates,
    [[[179.5, 0], [180, 0]], [[-180, 0], [-179.5, 0]]]);
});
test("of what is saved nothing is kept, and a long track has pauses", () => {
  const lines = Array.from({ length: 2000 }, (_, k) => place(k, "Q1A", 54 + k / 1e4, -3));
  const net = netOfLines(lines), data = { title: "x", rows: new Uint8Array() };
  for (const name of Object.keys(SAVES)) savedText(name, net, data);
  assert.ok(net.placed[0].made.size <= 1);
  const pieces = [...SAVES["places and tracks (GeoJSON)"][2](net, data, [])];
  // four of points, three pauses, a track and an end
  assert.deepEqual(pieces.map(it => it === ""), [...Array(4).fill(false), true, true, true, false,
    false]);
  const { features } = JSON.parse(pieces.join("")), track = features.at(-1).geometry.coordinates;
  assert.deepEqual([features.length, track.length, track[0].length], [2001, 1, 2000]);
  assert.deepEqual(track[0].at(-1), [-3, 54.1999]);
});
test("GPX has no longitude of 180, which its schema refuses", () => {
  const net = netOfLines([place(0, "Q1A", 0, 180), place(9, "Q1A", 0, -180)]);
  const gpx = savedText("places and tracks (GPX)", net, { title: "x" });
  assert.deepEqual(new Set(gpx.match(/lon="[^"]*"/g)), new Set(['lon="-180.0000000"']));
});
test("GeoJSON is one collection, of nothing too", () => {
  for (const lines of [[], [place(0, "Q1A", 1, 2)]]) {
    const it = JSON.parse(savedText("places and tracks (GeoJSON)", netOfLines(lines)));
    assert.deepEqual([it.type, it.features.length], ["FeatureCollection", lines.length]);
  }
});
test("a killed object ends a track's segment", () => {
  const of = (second, state, east) => row("object", second, "Q1A", { name: "X", state,
    latitude: "1", longitude: String(east), symbol: "/E" });
  const net = netOfLines(
    [of(0, "live", 1), of(1, "killed", 2), of(2, "live", 3), of(3, "live", 4)]);
  const gpx = savedText("places and tracks (GPX)", net, { title: "x" });
  assert.equal(gpx.split("<trkseg>").length - 1, 2);
  const { features } = JSON.parse(savedText("places and tracks (GeoJSON)", net));
  assert.deepEqual(features.at(-1).geometry.coordinates, [[[1, 1], [2, 1]], [[3, 1], [4, 1]]]);
});
test("a description in KML is text of HTML", () => {
  const net = netOfLines([place(0, "Q1A", 1, 2, { text: "<b>&" })]);
  assert.match(savedText("places and tracks (KML)", net, { title: "x" }),
    /<description>&#38;#60;b&#38;#62;&#38;#38;<\/description>/);
});
test("texts off the air: UTF-8, and what is none or can't be read as it is shown", () => {
  assert.equal(said("caf\\xc3\\xa9"), "caf\u00e9");
  assert.equal(said("caf\\xe9 caf\\xc3\\xa9"), "caf\\xe9 caf\u00e9");
  assert.equal(said("a\\x5cb"), "a\\b");
  assert.equal(said("a\\\\b"), "a\\b");
  assert.equal(said("\\xe2\\x80\\xaegnp"), "\\xe2\\x80\\xaegnp");
  assert.equal(printable("a\u202eb c"), "a\\xe2\\x80\\xaeb c");
  assert.equal(letterOf("\\x5c#"), "\\x5c");
});
