import assert from "node:assert/strict";
import { test } from "node:test";
import { open, skip } from "./window.js";
import { readBase, readingBase } from "../../page/src/formats/read-vector.js";
import { degreesOf } from "../../page/src/geo/sphere.js";

if (!skip) open(null);
/** The lines and points of a text, in degrees. */
function read(text) {
  const { lines, points } = readBase(text);
  const degrees = vector => degreesOf(vector).map(it => Number(it.toFixed(6)));
  return { lines: lines.map(line => Array.from({ length: line.length / 3 }, (_, k) =>
    degrees(line.subarray(3 * k, 3 * k + 3)))),
  points: points.map(({ vector, name }) => [name, ...degrees(vector)]) };
}

test("GPX: segments of tracks, routes and waypoints", { skip }, () => {
  const text = '<?xml version="1.0"?><gpx xmlns="http://www.topografix.com/GPX/1/1">' +
    '<wpt lat="54.5" lon="-3.5"><ele>9</ele><name>Start &amp; end</name></wpt>' +
    '<wpt lat="-1" lon="179.5"/>' +
    '<rte><name>r</name><rtept lat="1" lon="2"/><rtept lat="3" lon="4"/></rte>' +
    '<trk><name>t</name><trkseg><trkpt lat="5" lon="6"/><trkpt lat="7" lon="8"/></trkseg>' +
    '<trkseg/><trkseg><trkpt lat="9" lon="10"/></trkseg></trk></gpx>';
  assert.deepEqual(read(text), { lines: [[[5, 6], [7, 8]], [[9, 10]], [[1, 2], [3, 4]]],
    points: [["Start & end", 54.5, -3.5], ["", -1, 179.5]] });
  // a prefix of the namespace, and what stands before the root
  assert.deepEqual(read('<!-- x -->\n<g:gpx xmlns:g="http://www.topografix.com/GPX/1/1">' +
    '<g:wpt lat="1" lon="2"><g:name>A</g:name></g:wpt></g:gpx>'),
  { lines: [], points: [["A", 1, 2]] });
});
test("KML: lines, rings, points and tracks of Google's", { skip }, () => {
  const text = '<kml xmlns="http://www.opengis.net/kml/2.2" ' +
    'xmlns:gx="http://www.google.com/kml/ext/2.2"><Document><Placemark><name>CP 1</name><Point>' +
    "<coordinates> -3.5,54.5,100 </coordinates></Point></Placemark><Placemark><name>way</name>" +
    "<LineString><coordinates>1,2 3,4\n5,6</coordinates></LineString></Placemark><Placemark>" +
    "<MultiGeometry><Polygon><outerBoundaryIs><LinearRing><coordinates>0,0 0,1 1,1 0,0" +
    "</coordinates></LinearRing></outerBoundaryIs></Polygon></MultiGeometry></Placemark>" +
    "<Placemark><gx:Track><gx:coord>7 8 9</gx:coord><gx:coord>10 11 12</gx:coord></gx:Track>" +
    "</Placemark></Document></kml>";
  assert.deepEqual(read(text), { lines: [[[2, 1], [4, 3], [6, 5]],
    [[0, 0], [1, 0], [1, 1], [0, 0]], [[8, 7], [11, 10]]], points: [["CP 1", 54.5, -3.5]] });
});
test("GeoJSON: each geometry, in features and collections", { skip }, () => {
  const feature = (type, coordinates, properties) =>
    ({ type: "Feature", geometry: { type, coordinates }, properties });
  assert.deepEqual(read(JSON.stringify({ type: "FeatureCollection", features: [
    feature("Point", [1, 2], { name: "A" }), feature("MultiPoint", [[3, 4], [5, 6]], { name: 7 }),
    feature("LineString", [[1, 1], [2, 2]]), feature("MultiLineString", [[[3, 3], [4, 4]]]),
    feature("Polygon", [[[0, 0], [0, 1], [1, 1]]]), feature("MultiPolygon", [[[[5, 5], [6, 6]]]]),
    { type: "Feature", geometry: null, properties: null },
    { type: "GeometryCollection", geometries: [{ type: "Point", coordinates: [8, 9] }] }] })),
  { lines: [[[1, 1], [2, 2]], [[3, 3], [4, 4]], [[0, 0], [1, 0], [1, 1]], [[5, 5], [6, 6]]],
    points: [["A", 2, 1], ["7", 4, 3], ["7", 6, 5], ["", 9, 8]] });
});
test("what is none of these is refused, and what is off the earth too", { skip }, () => {
  const refused = { "<gpx>": /not well-formed XML/, "<svg/>": /no GPX/, "{": /JSON/i,
    '{"type":"Circle"}': /no GeoJSON/, "null": /no GeoJSON/,
    '<gpx><wpt lat="91" lon="0"/></gpx>': /off the earth/,
    '<gpx><wpt lat="x" lon="0"/></gpx>': /off the earth/,
    '<gpx><wpt lat="0" lon="541"/></gpx>': /off the earth/,
    '{"type":"Point","coordinates":[0,90.1]}': /off the earth/ };
  for (const [text, why] of Object.entries(refused)) assert.throws(() => readBase(text), why, text);
  // east goes on beyond the date line, up to once and a half around
  assert.deepEqual(read('{"type":"Point","coordinates":[540,90]}').points[0].slice(0, 2), ["", 90]);
});
test("a long course is read in steps, which count its places", () => {
  const coordinates = Array.from({ length: 10000 }, (_, k) => [k / 1e4, 54]), sums = [];
  const steps = readingBase(JSON.stringify({ type: "LineString", coordinates }));
  let it = steps.next();
  for (; !it.done; it = steps.next()) sums.push(it.value);
  assert.deepEqual(sums, [4096, 4096, 1808]);
  assert.equal(it.value.lines[0].length, 30000);
});
test("an odd GeoJSON is refused in words, and odd names are none", { skip }, () => {
  const deep = '{"type":"GeometryCollection","geometries":['.repeat(200) + "]}".repeat(200);
  const refused = { '{"type":{"toString":1}}': /^no GeoJSON$/,
    '{"type":"Point"}': /a list is missing/,
    '{"type":"LineString","coordinates":7}': /a list is missing/,
    '{"type":"Point","coordinates":["1",2]}': /off the earth/, [deep]: /too deep in each other/ };
  for (const [text, message] of Object.entries(refused))
    assert.throws(() => readBase(text), { message });
  assert.deepEqual(read('{"type":"Feature","properties":{"name":{"toString":null}},"geometry":' +
    '{"type":"Point","coordinates":[1,2]}}').points, [["", 2, 1]]);
});
test("XML that a browser takes no deeper is not called ill-formed", { skip }, t => {
  const { DOMParser } = globalThis, put = value =>
    Object.defineProperty(globalThis, "DOMParser", { value, configurable: true });
  t.after(() => put(DOMParser));
  put(class { parseFromString() {
    return { querySelector: () => ({ textContent: "Excessive depth in document: 256" }) };
  } });
  assert.throws(() => readBase("<kml></kml>"), /too deep in each other/);
});
