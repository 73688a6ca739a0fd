import assert from "node:assert/strict";
import { test } from "node:test";
import { distance, vectorOf } from "../../page/src/geo/sphere.js";
import { Measure, wayOf } from "../../page/src/map/measure.js";
import { far, inWords, scaleOf } from "../../page/src/geo/units.js";

/** What a run says in metric units, and in miles. */
const METRIC = { miles: false };
const both = run => [{ miles: false }, { miles: true }].map(run);

test("numbers of the table in both units", () => {
  // 100 feet, 36 knots, 77 degrees of Fahrenheit, and what is a hundredth of an inch
  assert.deepEqual(both(units => inWords("metres", 30.48, units)), ["30 m", "100 ft"]);
  assert.deepEqual(both(units => inWords("knots", 36, units)), ["67 km/h", "41 mph"]);
  assert.deepEqual(both(units => inWords("mph", 4, units)), ["1.8 m/s", "4 mph"]);
  assert.deepEqual(both(units => inWords("mph", 30, units)), ["13 m/s", "30 mph"]);
  assert.deepEqual(both(units => inWords("fahrenheit", 77, units)), ["25 \u00b0C", "77 \u00b0F"]);
  assert.deepEqual(both(units => inWords("fahrenheit", 31.9, units)), ["0 \u00b0C", "32 \u00b0F"]);
  assert.deepEqual(both(units => inWords("rain", 1, units)), ["0.3 mm", "0.01 in"]);
});
test("ways in the unit that says enough", () => {
  assert.deepEqual(both(units => far(999.4, units)), ["999 m", "0.6 mi"]);
  assert.deepEqual(both(units => far(999.6, units)), ["1.0 km", "0.6 mi"]);
  assert.deepEqual(both(units => far(304, units)), ["304 m", "997 ft"]);
  assert.deepEqual(both(units => far(160934.4, units)), ["161 km", "100 mi"]);
  assert.deepEqual(both(units => far(99949, units)), ["99.9 km", "62.1 mi"]);
});
test("the scale of a map is a round length", () => {
  assert.deepEqual(both(units => scaleOf(130, units).text), ["200 m", "500 ft"]);
  assert.deepEqual(both(units => scaleOf(700, units).text), ["1 km", "1 mi"]);
  assert.deepEqual(both(units => scaleOf(1400, units).text), ["2 km", "1 mi"]);
  assert.deepEqual(both(units => scaleOf(2.9e6, units).text), ["5000 km", "2000 mi"]);
  for (const miles of [false, true]) {
    for (let metres = 1; metres < 2e7; metres *= 1.3)
      assert.ok(scaleOf(metres, { miles }).metres >= metres * 0.99, String(metres));
  }
});
test("a line that is measured goes the shortest way", () => {
  const london = vectorOf(51.5, 0), tokyo = vectorOf(35.7, 139.7), way = wayOf(london, tokyo);
  const places = Array.from({ length: way.length / 3 }, (_, k) => way.slice(3 * k, 3 * k + 3));
  const sum = places.slice(1).reduce((all, it, k) => all + distance(places[k], it), 0);
  assert.ok(Math.abs(sum - distance(london, tokyo)) < 1);
  assert.deepEqual(way.slice(0, 3), london);
  // a way below 50 km is one stroke
  assert.deepEqual([0, 0.44, 0.46].map(it => wayOf(london, vectorOf(51.5 + it, 0)).length / 3),
    [2, 2, 3]);
  assert.equal(wayOf([1, 0, 0], [-1, 0, 0]).length, 6);
});
test("what is measured, in words", () => {
  const line = new Measure();
  assert.equal(line.text(METRIC), "");
  line.turn(true);
  assert.equal(line.text(METRIC), "measure: click where it begins");
  line.add(vectorOf(0, 0));
  assert.equal(line.text(METRIC), "measure: click where it ends");
  line.add(vectorOf(1, 0));
  assert.equal(line.text(METRIC), "111 km at 000\u00b0");
  line.add(vectorOf(1, -1));
  assert.equal(line.text(METRIC), "111 km at 270\u00b0, all 222 km");
  line.back();
  assert.equal(line.text(METRIC), "111 km at 000\u00b0");
  line.turn(false);
  assert.deepEqual([line.text(METRIC), line.places], ["", []]);
});
