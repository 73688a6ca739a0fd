import assert from "node:assert/strict";
import { test } from "node:test";
import { Colouring, wayFor } from "../../page/src/map/colours.js";
import { densityOf, isDense } from "../../page/src/map/density.js";
import { Fan, pilesOf, spotsAround } from "../../page/src/map/spiderfy.js";
import { numbersOf, restOf, wayOf } from "../../page/src/lists/frames.js";
import { kindsOf } from "../../page/src/lists/station-facts.js";
import { graphsOf, partsOf, ticksOf } from "../../page/src/lists/charts.js";
import { Looked } from "../../page/src/app/seen.js";
import { channelsOf, isBattery } from "../../page/src/net/telemetry.js";
import { quarterOf } from "../../page/src/map/tracks.js";
import { message, netOfLines, place, row, thing, SETTINGS } from "./tables.js";

const mark = (key, x, y) =>
  ({ thing: { key }, place: { vector: [1, 0, 0] }, picked: false, colour: "", x, y });

test("marks that cover one another are one pile, the top one first", () => {
  const marks = [mark("a", 50, 50), mark("b", 52, 51), mark("c", 70, 50), mark("d", 50, 58.5)];
  const keys = small => pilesOf(marks, small).map(it => it.map(one => one.thing.key).join(""));
  assert.deepEqual(keys(false), ["dba", "c"]);
  // dots are smaller
  assert.deepEqual(keys(true), ["d", "c", "ba"]);
  // less than 5 pixels apart, and marks less than 9
  const areOne = (by, small) => pilesOf([mark("a", 50, 50), mark("b", 50 + by, 50)], small).length;
  assert.deepEqual([areOne(4.9, true), areOne(5, true), areOne(8.9, false), areOne(9, false)],
    [1, 2, 1, 2]);
  // over the border of a cell too
  assert.equal(pilesOf([mark("a", 8.9, 8.9), mark("b", 9.1, 9.1)], false).length, 1);
});
test("marks that fan out stand apart, on a ring or a spiral", () => {
  for (const n of [2, 3, 14, 15, 40]) {
    const spots = spotsAround(n);
    assert.equal(spots.length, n);
    for (const [k, a] of spots.entries())
      for (const b of spots.slice(k + 1)) assert.ok(Math.hypot(a.x - b.x, a.y - b.y) > 18, `${n}`);
  }
});
test("a fan puts its own marks around a spot, in the same places each time", () => {
  const fan = new Fan(), marks = ["a", "b", "c"].map(key => mark(key, 5, 5));
  assert.equal(fan.isOpen, false);
  fan.open([marks[1], marks[0]]);
  const spread = fan.spread(marks, { x: 100, y: 100 }), { x, y } = marks[0];
  assert.deepEqual(spread.map(it => it.thing.key), ["a", "b"]);
  fan.spread([...marks].reverse(), { x: 100, y: 100 });
  assert.deepEqual([marks[0].x, marks[0].y, marks[2].x], [x, y, 5]);
  fan.close();
  assert.deepEqual([fan.isOpen, fan.spread(marks, { x: 0, y: 0 }).length], [false, 0]);
});
test("colours say age, receiver or kind, and each is in the legend", () => {
  const of = (by, kind = "station") => ({ by, kind, key: "station Q1A" });
  const age = new Colouring("age", { silent: 1800 });
  assert.deepEqual([0, 299, 300, 899, 900, 1799, 1800, 3599, 3600].map(it => age.of(of([]), it)),
    ["a0", "a0", "a1", "a1", "a2", "a2", "a3", "a3", "a4"]);
  assert.equal(age.legend[0].text, "heard within 5 min");
  const receivers = Array.from({ length: 9 }, (_, k) => ({ name: `RX${k}`, heard: 10 * k }));
  const by = new Colouring("receiver", { receivers });
  assert.deepEqual([["RX8"], ["RX7"], ["RX0"], ["RX8", "RX7"]].map(it => by.of(of(it), 0)),
    ["t0", "t1", "soft", "ink"]);
  assert.deepEqual(by.legend.map(it => it.text).slice(-3), ["RX1", "several", "another"]);
  assert.equal(new Colouring("kind").of(of([], "item"), 0), "item");
  assert.deepEqual([new Colouring("own").of(of([]), 0), new Colouring("own").legend], ["t2", []]);
  assert.deepEqual([wayFor(60), wayFor(61)], ["own", "age"]);
});
test("many marks in few squares are density, and squares move with the map", () => {
  const view = { width: 300, height: 200 };
  const grid = n => Array.from({ length: n }, (_, k) => ({ x: k * 7 % 300, y: k * 11 % 200 }));
  const of = (marks, anchor = { x: 0, y: 0 }) => densityOf(marks, view, anchor);
  assert.equal(isDense(500, of(grid(500))), false);
  assert.equal(isDense(3000, of(grid(3000))), true);
  const pile = Array.from({ length: 600 }, () => ({ x: 5, y: 5 }));
  assert.deepEqual([of(pile).most, of(pile).taken, isDense(600, of(pile))], [600, 1, true]);
  const a = of(grid(600)), b = of(grid(600).map(it => ({ x: it.x + 3, y: it.y })), { x: 3, y: 0 });
  assert.equal(a.most, b.most);
  // beside the map and on its border nothing is lost or read past the end
  assert.equal(of([{ x: -10, y: -10 }, { x: 310, y: 210 }, { x: 1e6, y: 1e6 }]).most, 1);
});
test("a track is paler by quarters of its time", () => {
  const time = { begin: 100, end: 500 };
  assert.deepEqual([0, 100, 199, 200, 399, 400, 500, 900].map(it => quarterOf(it, time)),
    [0, 0, 0, 1, 2, 3, 3, 3]);
  assert.equal(quarterOf(5, { begin: 5, end: 5 }), 0);
});

test("graphs are of the table's columns, in the unit that is said, of two values or more", () => {
  const high = { temperature_f: 50, altitude_m: "376.1232", gust_mph: 9 };
  const net = netOfLines([place(0, "Q1A", 1, 2, high),
    place(60, "Q1A", 1, 2, { temperature_f: 68, wind_mph: 0, a1: 7 }),
    row("telemetry", 90, "Q1A", { a1: 8 }), place(99, "Q1B", 1, 2, { temperature_f: 1 })]);
  const { rows } = thing(net, "Q1A"), numbers = numbersOf(thing(net, "Q1A"), net.rows);
  assert.equal(numbers.length, 3);
  // of a station with many rows, records of all would stop the page for seconds
  rows.record = () => assert.fail("a record");
  assert.deepEqual(graphsOf(rows, numbers, channelsOf([], ""), SETTINGS).map(it =>
    [it.title, it.unit, it.lines.map(line => line.map(one => one.value))]),
  [["temperature", "\u00b0C", [[10, 20]]], ["telemetry 1", "as sent", [[7, 8]]]]);
});
test("telemetry has the names, units and equations that messages to its station say", () => {
  const say = (text, second, to = "Q1A") => message("Q1A", to, text, "unnumbered", second);
  const net = netOfLines([row("telemetry", 0, "Q1A", { a1: 10, a2: 120, a3: 3 }),
    row("telemetry", 60, "Q1A", { a1: 20, a2: 118, a3: 4 })],
  [say("PARM.Old", 0), say("PARM.Temp,Vbat", 1), say("UNIT.C,V", 2), say("EQNS.1,2,3,0,.1,0,x", 3),
    say("PARM.Sun", 9, "Q1B")]);
  const channels = channelsOf(net.messages, "Q1A");
  const { rows } = thing(net, "Q1A"), numbers = numbersOf(thing(net, "Q1A"), net.rows);
  assert.deepEqual(graphsOf(rows, numbers, channels, SETTINGS).map(it =>
    [it.title, it.unit, it.lines[0].map(one => Number(one.value.toFixed(6)))]),
  [["Vbat", "V", [12, 11.8]], ["Temp", "C", [123, 443]], ["telemetry 3", "as sent", [3, 4]]]);
  // no equation fills a line with digits
  const large = { addressee: "Q1A", text: "EQNS.0,0,1e99", last: 9e9 };
  const [first] = channelsOf([...net.messages, large], "Q1A");
  assert.deepEqual([first.of(7), first.unit], [7, "C"]);
  assert.deepEqual(["Battery", "batt", "Bat1 V", "Vbat", "Bath", "combat"].map(name =>
    isBattery({ name, unit: "x", of: Number })), [true, true, true, true, false, false]);
  assert.ok(isBattery({ name: "A1", unit: "mV", of: Number }));
});
test("kinds are counted of a station's own rows, and of those that are shown alone", () => {
  const net = netOfLines([place(0, "Q1A", 1, 2), row("status", 1, "Q1A"), row("new", 2, "Q1A"),
    place(3, "Q1B", 1, 2), row("status", 4, "Q1A")]);
  const of = picks => Object.fromEntries(kindsOf(thing(net, "Q1A"), picks));
  assert.deepEqual(of(net.rows), { position: 1, status: 2, "other (new)": 1 });
  // a list of four that has room for more
  assert.deepEqual(of({ ...net.rows, length: 4 }), { position: 1, status: 1, "other (new)": 1 });
});
test("a gap isn't joined", () => {
  const line = [0, 60, 120, 180, 500, 560, 2000].map(at => ({ at, value: 1 }));
  assert.deepEqual(partsOf(line).map(it => it.length), [4, 2, 1]);
  // three usual steps are none
  assert.equal(partsOf([0, 60, 120, 300].map(at => ({ at, value: 1 }))).length, 1);
  assert.equal(partsOf([0, 60, 120, 301].map(at => ({ at, value: 1 }))).length, 2);
});
test("a scale has round numbers around all values", () => {
  assert.deepEqual(ticksOf(9.8, 15.2), [8, 10, 12, 14, 16]);
  const spans = [[9.8, 15.2], [0, 0], [-40, -39.9], [1e6, 3e6], [0.001, 0.002], [255, 255]];
  for (const [least, most] of spans) {
    const ticks = ticksOf(least, most);
    assert.ok(ticks[0] <= least && ticks.at(-1) >= most, `${ticks}`);
    assert.ok(ticks.length >= 2 && ticks.length <= 6, `${ticks}`);
  }
  assert.deepEqual(ticksOf(0, 10), [0, 5, 10]);
});
test("a transmission is told whole: its way, and each column that says something", () => {
  const net = netOfLines([row("object", 0, "Q1A", { via: "Q1DIG*,WIDE2-1", name: "CP1",
    state: "live", latitude: "1.0000000", longitude: "2.0000000", text: "a\\x41" }),
  place(1, "Q1B", 1, 2)]);
  const numbers = ["CP1", "Q1A"].map(name => numbersOf(thing(net, name), net.rows));
  assert.deepEqual(numbers, [[0], [0]]);
  const it = net.things[0].rows.record(0);
  assert.equal(wayOf(it), "Q1A>APRS,Q1DIG*,WIDE2-1");
  assert.equal(restOf(it), "name CP1, state live, latitude 1.0000000, longitude 2.0000000");
});

test("what wasn't there when one looked is new: stations, messages, states", () => {
  const of = (lines, messages) => netOfLines(lines, messages);
  const before = of([place(0, "Q1A", 1, 2)],
    [message("Q1A", "Q1B", "x", "unanswered", 0, { id: 1 })]);
  const after = of([place(0, "Q1A", 1, 2), place(9, "Q1A", 1, 3), place(5, "Q1C", 1, 2)],
    [message("Q1A", "Q1B", "x", "acknowledged", 0, { id: 1 }),
      message("Q1A", "BLN1", "y", "unnumbered", 3)]);
  const looked = new Looked();
  assert.equal(looked.count(after), 0);
  looked.look(before, 100);
  assert.equal(looked.count(before), 0);
  assert.equal(looked.count(after), 3);
  assert.deepEqual(["Q1A", "Q1C"].map(name => looked.isNewThing(thing(after, name))),
    [false, true]);
  looked.look(after, 200);
  assert.equal(looked.count(after), 0);
});
test("another part of the time brings nothing new", () => {
  const lines = [place(0, "Q1A", 1, 2), place(9000, "Q1B", 1, 2)], looked = new Looked();
  const since = Date.UTC(2024, 5, 21, 19) / 1000;
  looked.look(netOfLines(lines, [], { since }), 100);
  const all = netOfLines([...lines, place(9100, "Q1C", 1, 2)]);
  assert.equal(looked.count(all), 2);
  looked.reveal(all);
  assert.deepEqual(all.things.filter(it => looked.isNewThing(it)).map(it => it.name), ["Q1C"]);
});
