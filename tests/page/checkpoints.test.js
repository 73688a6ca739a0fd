// Checkpoints, as `aprs-net passed` has them: of an evening and of six random logs both were the
// same, to the millisecond.
import assert from "node:assert/strict";
import { test } from "node:test";
import { chordOf, metresBetween } from "../../page/src/geo/chord.js";
import { linesOf, passagesOf, passedWords, turnsOf } from "../../page/src/lists/passed.js";
import { passedOf, readCheckpoints } from "../../page/src/net/checkpoints.js";
import { atOnce } from "../../page/src/util/tasks.js";
import { moment, netOfLines, place, row, SETTINGS, settingsFor } from "./tables.js";

const [TARN] = readCheckpoints("Tarn 54.5 -3.5 150");
const passed = (lines, points = [TARN]) => atOnce(passedOf(netOfLines(lines).placed, points));
const clock = at => new Date(Math.round(at * 1000)).toISOString();
const came = lines => passed(lines).visits.map(it =>
  [clock(it.came), clock(it.went), it.lap, it.isHeard]);
/** A degree north is 111,194.9 m, so this is so many metres from Tarn. */
const north = (second, metres, fields) => place(second, "Q1A", 54.5 + metres / 111194.93, -3.5,
  fields);

test("a line is a name, degrees north and east, and metres, also as a spreadsheet saves it", () => {
  const tarn = { name: "Tarn", north: 54.5, east: -3.5, metres: 150 };
  for (const text of ["Tarn 54.5 -3.5 150", "\ufeffTarn;54,5;-3,5;150 m",
    "Tarn\t54.5\t-3.5\t0.15km",
    "name,north,east,metres\nTarn,54.5,-3.5,150m\n", "# all\n\nTarn 54.5 -3.5 150 # here\r\n"])
    assert.deepEqual(readCheckpoints(text), [tarn], text);
  assert.deepEqual(readCheckpoints("Far Moor 54.5 -3.5 150")[0].name, "Far Moor");
  // a list of calls is none, and a wrong line among right ones is named
  for (const text of ["", "Q1RUN Leader\n", "call,name\nQ1RUN,Leader\n", "Tarn 95 -3.5 150",
    "Tarn 54.5 -3.5 0"]) assert.deepEqual(readCheckpoints(text), [], text);
  assert.throws(() => readCheckpoints("Tarn 54.5 -3.5 150\nMoor 54.5 x 1\n"),
    /^Error: line 2 is no/);
});
test("a way through a circle enters, is nearest and leaves", () => {
  const middle = { north: 0, east: 0 }, at = (n, e) => ({ north: n, east: e });
  const found = chordOf(middle, 111194.93 / 2, at(-1, 0), at(1, 0));
  assert.deepEqual([found.enters, found.leaves, found.metres].map(it => +it.toFixed(6)),
    [0.25, 0.75, 0]);
  assert.equal(chordOf(middle, 1000, at(-1, 1), at(1, 1)), null);
  assert.deepEqual(chordOf(middle, 1000, middle, middle), { enters: 0, leaves: 1, metres: 0 });
  // over the date line, and near a pole
  assert.ok(chordOf(at(0, 180), 1000, at(0, 179.9), at(0, -179.9)));
  assert.ok(chordOf(at(89.99, 0), 2000, at(89.99, 0), at(89.99, 180)));
  assert.equal(Math.round(metresBetween(at(0, 0), at(1, 0))), 111195);
});
test("a visit is heard, or the way alone leads through", () => {
  assert.deepEqual(came([north(0, -300), north(60, 300)]),
    [[moment(15), moment(45), 1, false]]);
  assert.deepEqual(came([north(0, -300), north(30, 0), north(60, 300)]),
    [[moment(15), moment(45), 1, true]]);
  assert.deepEqual(came([north(0, -300), north(60, -151)]), []);
  // at the circle itself it is heard too
  const edge = { north: 54.501, east: -3.5 }, metres = metresBetween(TARN, edge);
  const [visit] = passed([north(0, -300), place(60, "Q1A", edge.north, edge.east)],
    [{ ...TARN, metres }]).visits;
  assert.equal(visit.isHeard, true);
  // no way leads over a quarter of an hour, nor faster than 300 km/h, but for what flies
  assert.deepEqual(came([north(0, -300), north(901, 300)]), []);
  assert.deepEqual(came([north(0, -3000), north(10, 3000)]), []);
  assert.equal(came([north(0, -3000, { altitude_m: 3001 }), north(10, 3000)]).length, 1);
  assert.equal(came([north(0, -3000), north(10, 3000, { altitude_m: 3001 })]).length, 1);
});
test("another lap begins twice the radius away, and a kill ends a way", () => {
  const laps = far => came([north(0, 0), north(60, far), north(120, 0)]).map(it => it[2]);
  assert.deepEqual([laps(299), laps(301)], [[1], [1, 2]]);
  const of = (second, metres, state) => row("object", second, "Q1A", { name: "X", state,
    latitude: String(54.5 + metres / 111194.93), longitude: "-3.5", symbol: "/E" });
  assert.equal(came([of(0, -300, "live"), of(30, -300, "killed"), of(60, 300, "live")]).length, 0);
  // digits that are left out say nothing
  assert.deepEqual(came([north(0, 0, { ambiguity: 1 })]), []);
});
test("places that nothing reaches are left out, and two that fit each other are a way", () => {
  const wild = lines => passed(lines);
  const one = wild([north(0, 0), north(60, 90000), north(120, 10)]);
  assert.deepEqual([one.wild, one.visits.length], [1, 1]);
  assert.equal(wild([north(0, 0), north(60, 90000), north(120, 90100)]).wild, 0);
});
test("who passed stands by number, with a time for each checkpoint and lap", () => {
  const settings = settingsFor([{ call: "Q1A", name: "Ann", group: "", bib: "12" },
    { call: "Q1C", name: "", group: "", bib: "7" }]);
  const points = [...readCheckpoints("Tarn 54.5 -3.5 150\nMoor 10 10 50")];
  const all = passed([north(0, 0), place(5, "Q1B", 54.5, -3.5), place(9, "Q1C", 54.5, -3.5)],
    points);
  assert.deepEqual(linesOf(all.visits, settings).map(it => [it.bib, it.name]),
    [["7", "Q1C"], ["12", "Q1A"], ["", "Q1B"]]);
  assert.deepEqual(turnsOf(all.visits).map(it => [it.turn, it.thing.name]),
    [[1, "Q1A"], [2, "Q1B"], [3, "Q1C"]]);
  assert.match(passedWords(all, { points, settings: SETTINGS }),
    /^Nobody passed Moor: Q1\w was nearest, \d{4} km away\. ~ marks/);
});
test("a table of visits has all checkpoints, and of later laps those that were passed", () => {
  const of = (points, ...visits) => passagesOf(points, visits.map(([lap, checkpoint]) =>
    ({ lap, checkpoint }))).map(it => [it.lap, it.checkpoint]);
  assert.deepEqual(of(2), [[1, 0], [1, 1]]);
  assert.deepEqual(of(0), []);
  // by number, and not by letters
  assert.deepEqual(of(1, [10, 0], [2, 11], [2, 9], [2, 9], [1, 0]),
    [[1, 0], [2, 9], [2, 11], [10, 0]]);
});
test("a visit stands by its lap and its checkpoint", () => {
  const all = passed([north(0, 0), north(60, 301), north(120, 0)]), [line] =
    linesOf(all.visits, SETTINGS);
  assert.deepEqual([...line.by].map(([lap, by]) => [lap, [...by.keys()]]), [[1, [0]], [2, [0]]]);
  assert.equal(line.by.get(2).get(0), all.visits[1]);
});
