import assert from "node:assert/strict";
import { test } from "node:test";
import { SAVES } from "../../page/src/formats/exports.js";
import { messagesCsv, placesCsv } from "../../page/src/formats/csv.js";
import { geoJsonOf } from "../../page/src/formats/geojson.js";
import { gpxOf } from "../../page/src/formats/gpx.js";
import { kmlOf } from "../../page/src/formats/kml.js";
import {
  decimal, hasMoved, markup, nowOf, PART, partsOf, runsOf,
} from "../../page/src/formats/places.js";
import { netOfLines, place, row, thing } from "./tables.js";

const text = pieces => [...pieces].join("");

test("the menu of saves has each form once", () => {
  assert.deepEqual(Object.values(SAVES).slice(0, 5).map(it => it[2]),
    [placesCsv, messagesCsv, gpxOf, geoJsonOf, kmlOf]);
  assert.equal(new Set(Object.values(SAVES).map(it => it[0])).size, 6);
});
test("markup holds what XML can't, and degrees have seven digits", () => {
  assert.equal(markup("<a b=\"c\" d='e'>&\u0000\ud800"),
    "&#60;a b=&#34;c&#34; d=&#39;e&#39;&#62;&#38;");
  assert.deepEqual([decimal(1), decimal(-0.00000004)], ["1.0000000", "-0.0000000"]);
});
test("places come some at a time, and a kill ends a run", () => {
  const many = netOfLines(Array.from({ length: PART + 1 }, (_, k) => place(k, "Q1A", 1, k / 100)));
  assert.deepEqual([...partsOf(thing(many, "Q1A"))].map(it => it.length), [PART, 1]);
  const killed = (second, state, north) => row("object", second, "Q1A", { name: "O", state,
    latitude: north, longitude: 2, symbol: "/-" });
  const it = thing(netOfLines([killed(0, "live", 1), killed(1, "killed", 2), killed(2, "live", 3)]),
    "O");
  assert.equal(text(runsOf(it, { open: "(", close: ")", between: "," }, one => String(one.north))),
    "(1,2)(3)");
  assert.deepEqual([hasMoved(it), nowOf(it).north], [true, 3]);
  assert.equal(hasMoved(thing(netOfLines([place(0, "Q1A", 1, 2), place(1, "Q1A", 1, 2)]), "Q1A")),
    false);
});
test("one that didn't move has no track in any form", () => {
  const net = netOfLines([place(0, "Q1A", 1, 2), place(1, "Q1A", 1, 2), place(0, "Q1B", 1, 2),
    place(1, "Q1B", 3, 180)]);
  const title = { title: "a & b" };
  assert.equal(text(gpxOf(net, title)).match(/<trk>/g).length, 1);
  assert.equal(text(kmlOf(net, title)).match(/ track<\/name>/g).length, 1);
  assert.match(text(gpxOf(net, title)), /<name>a &#38; b<\/name>.*lon="-180\.0000000"/s);
  const { features } = JSON.parse(text(geoJsonOf(net)));
  assert.deepEqual(features.map(it => it.geometry.type),
    ["Point", "Point", "Point", "Point", "MultiLineString"]);
  assert.equal(text(geoJsonOf(netOfLines([]))), '{"type":"FeatureCollection","features":[]}\n');
});
