import assert from "node:assert/strict";
import { test } from "node:test";
import { byId, enter, open, pen, skip, textsOf, until } from "./window.js";
import { vectorOf } from "../../page/src/geo/sphere.js";
import { netOf } from "../../page/src/net/net.js";
import { atOnce } from "../../page/src/util/tasks.js";
import {
  allOfLines, message, messageTable, place, row, SETTINGS, table,
} from "./tables.js";

const COURSE = '<gpx><wpt lat="54.5" lon="-3.5"><name>Start</name></wpt>' +
  '<rte><rtept lat="54.5" lon="-3.5"/><rtept lat="54.6" lon="-3.4"/></rte></gpx>';
const DATA = { title: "Fell race", gap: 30, silent: 30, live: 0, maps: [COURSE],
  roster: "call,name,group,number\nQ1RUN-*,Leader,Runners,7\nQ1GONE,Marshal,,\n",
  notes: ["hill.log: 2 damaged lines left out"],
  rows: table([
    place(0, "Q1RUN-7", 54.5, -3.5, { course: 88, speed_knots: 36, altitude_m: 100,
      text: "on the way", receivers: "HILL,COAST" }),
    place(600, "Q1RUN-7", 54.52, -3.45, { text: "at CP 2", altitude_m: 220 }),
    row("mic-e", 700, "Q1MED", { latitude: 54.55, longitude: -3.6, symbol: "/a",
      says: "emergency", ambiguity: 2 }),
    row("object", 800, "Q1BASE", { name: "CP 2", state: "live", latitude: 54.51, longitude: -3.47,
      symbol: "\\;", ambiguity: 0, compressed: "no" }),
    row("item", 900, "Q1BASE", { name: "Water", state: "live", latitude: 54.53, longitude: -3.42,
      symbol: "/w", ambiguity: 0, compressed: "no" }),
    row("object", 950, "Q1BASE", { name: "Old", state: "killed", latitude: 54.56, longitude: -3.4,
      symbol: "/-", ambiguity: 0, compressed: "no" }),
    row("status", 1000, "Q1BASE", { text: "net control", receivers: "COAST" }),
    place(1100, "Q1ZERO", 0, 0),
    row("weather", 1200, "Q1WX", { temperature_f: 50, wind_mph: 10, wind_from: 220,
      humidity: 80 }),
    row("weather", 1260, "Q1WX", { temperature_f: 68, wind_mph: 0, wind_from: 0, humidity: 70 }),
    row("strange", 4000, "Q1BASE", { text: "?" })]),
  messages: messageTable([
    message("Q1BASE", "Q1RUN-7", "where are you?", "acknowledged", 1300, { id: "1",
      answer: "2024-06-21T18:22:00.000Z", answer_source: "Q1RUN-7" }),
    message("Q1RUN-7", "Q1BASE", "at CP 2", "unanswered", 1400, { id: "2" }),
    message("Q1BASE", "BLN1", "start at 9", "unnumbered", 1500)]) };

if (!skip) open(DATA, { hash: "#time=utc" });
const { page } = skip ? {} : await import("../../page/src/main-event.js")
  .then(() => globalThis.aprsbook);
const { aprsbook } = globalThis;
if (!skip) await until(() => document.querySelector("#timeline tbody tr"));
const cells = (box, n) => [...document.querySelectorAll(`#${box} tbody tr`)].map(it =>
  [...it.children].map(one => one.textContent).slice(0, n));

test("what stands above all says when, of how many, by whom, and what to do", { skip }, () => {
  assert.equal(byId("title").textContent, "Fell race");
  assert.equal(byId("about").textContent, "2024-06-21 18:00:00 to 19:06:40 UTC \u00b7 " +
    "11 transmissions of 5 stations \u00b7 heard by COAST, HILL, RX1");
  assert.deepEqual(textsOf("#news > *").filter(it => !/^ages/.test(it)), [
    "EMERGENCY: Q1MED, 18:11:40", "1 message unanswered", "4 stations silent for over 30 min",
    "2 of 2 expected not heard for 30 min: Leader (Q1RUN-*), Marshal (Q1GONE)",
    "nothing heard for over 30 min by COAST, HILL", "1 station at 0, 0, which is no fix",
    "1 transmission of a kind that this page doesn\u2019t know",
    "hill.log: 2 damaged lines left out"]);
  assert.equal(byId("zone").textContent, "All times are UTC.");
  assert.equal(byId("net").hidden || byId("controls").hidden, false);
});
test("the lists have what the tables say", { skip }, () => {
  assert.deepEqual(cells("messages", 7), [
    ["unanswered", "Leader (Q1RUN-7)", "Q1BASE", "at CP 2 dealt with", "2", "18:23:20",
      "18:23:20"],
    ["acknowledged", "Q1BASE", "Leader (Q1RUN-7)", "where are you?", "1", "18:21:40", "18:21:40"]]);
  assert.deepEqual([...document.querySelectorAll("#messages .state")].map(it => it.title),
    ["", "by Leader (Q1RUN-7), 2024-06-21 18:22:00 UTC"]);
  assert.deepEqual(cells("bulletins", 4), [["BLN1", "Q1BASE", "start at 9", "18:25:00"]]);
  const things = Object.fromEntries(cells("things", 8).map(([name, ...others]) => [name, others]));
  assert.deepEqual(Object.keys(things).sort(), ["CP 2", "Leader (Q1RUN-7)", "Old", "Q1BASE",
    "Q1MED", "Q1WX", "Q1ZERO", "Water"].sort());
  assert.deepEqual(things["Leader (Q1RUN-7)"], ["station", "18:10:00", "56 min", "RX1", "2",
    "54.5200, -3.4500", "220 m high at CP 2 "]);
  assert.deepEqual(things["CP 2"].slice(0, 3), ["object of Q1BASE", "18:13:20", "53 min"]);
  assert.equal(things.Old[0], "object killed of Q1BASE");
  assert.deepEqual(things.Q1MED.slice(5), ["54.5500, -3.6000 (about)", "emergency  "]);
  assert.equal(things.Q1ZERO[6], "its place is 0, 0: no fix ");
  assert.equal(things.Q1BASE[6], "net control");
  const classes = name => [...document.querySelectorAll("#things tbody tr")]
    .find(it => it.querySelector("th").textContent === name).className;
  assert.deepEqual([classes("Q1MED"), classes("Old"), classes("Q1BASE")],
    ["station silent emergency", "object killed", "station"]);
  assert.deepEqual(cells("expected", 5).sort(), [["Q1GONE", "Marshal", "",
    "not heard isn\u2019t coming", ""],
    ["Q1RUN-*", "Leader", "Runners 7", "18:10:00", "56 min"]]);
  assert.deepEqual(cells("receivers", 5), [["COAST", "18:16:40", "50 min", "2", "1"],
    ["HILL", "18:00:00", "66 min", "1", ""], ["RX1", "19:06:40", "0 s", "9", "9"]]);
});
test("columns of numbers are told from those of words, in each list", { skip }, () => {
  byId("one").hidden || byId("one-close").click();
  [...document.querySelectorAll(".pick")].find(it => it.textContent === "Leader (Q1RUN-7)").click();
  const numbers = id => [...document.querySelectorAll(`#${id} thead th.num`)]
    .map(it => it.textContent);
  assert.deepEqual(["messages", "bulletins", "things", "places", "frames", "receivers", "expected"]
    .map(numbers), [["first", "last"], ["first", "last"], ["last heard", "age", "sent"], ["heard"],
    ["heard"], ["last heard", "age", "heard", "alone", "clock"], ["last heard", "age"]]);
  byId("one-close").click();
});
test("who heard whom, who repeated whom, and when", { skip }, () => {
  assert.deepEqual(cells("heard", 5), [["all", "2", "1", "9", "11"], ["Q1BASE", "1", "", "4", "5"],
    ["Q1MED", "", "", "1", "1"], ["Q1RUN-7", "1", "1", "1", "2"], ["Q1WX", "", "", "2", "2"],
    ["Q1ZERO", "", "", "1", "1"]]);
  const [, all] = document.querySelectorAll("#heard tbody tr:first-child > *");
  assert.equal(all.title, "2 of 11 (18 %), 1 by no other");
  assert.deepEqual(textsOf("#timeline tbody th"), ["all", "Q1BASE", "Q1MED", "Q1RUN-7", "Q1WX",
    "Q1ZERO"]);
  assert.deepEqual(textsOf("#timeline .hours span"), ["18:00", "18:16", "18:33", "18:50", "19:06"]);
});
test("the most in a part of the time is as high as its strip, and others as their share", { skip },
  async () => {
    const { timelineList } = await import("../../page/src/lists/timeline.js");
    const all = allOfLines([0, 1, 2, 3, 3600, 7200, 7201].map(it =>
      place(it, "Q1A", 54.5, -3.5, { text: `no. ${it}` })));
    const net = atOnce(netOf(all, -Infinity)), box = document.createElement("div");
    atOnce(timelineList(box, all.rows, net, { sent: new Map([["Q1A", 7]]), clock: SETTINGS }));
    const high = [...box.querySelector("path").getAttribute("d").matchAll(/v-([\d.]+)/g)];
    assert.deepEqual(high.map(it => it[1]), ["20.0", "8.0", "12.0"]);
  });
test("what is looked for, and of which kind, is in the list and on the map", { skip }, async () => {
  enter("find", "leader", "input");
  assert.deepEqual([textsOf("#things tbody th"), byId("found").textContent],
    [["Leader (Q1RUN-7)"], "1 of 8"]);
  assert.deepEqual(aprsbook.layers.stations.things.map(it => it.name), ["Q1RUN-7"]);
  assert.equal(byId("map").getAttribute("aria-label"), "map of 1 place; the table has them too");
  enter("find", "net control", "input");
  assert.deepEqual(textsOf("#things tbody th"), ["Q1BASE"]);
  enter("find", "", "input");
  for (const [kind, names] of Object.entries({ item: ["Water"], object: ["CP 2", "Old"],
    silent: ["Leader (Q1RUN-7)", "Q1MED", "Q1WX", "Q1ZERO"] })) {
    enter("kind", kind);
    assert.deepEqual(textsOf("#things tbody th").sort(), names, kind);
  }
  enter("kind", "");
  assert.deepEqual([byId("found").textContent, page.found.length], ["", 8]);
});
test("what is picked is told: where, what it says, its graphs, places and frames", { skip }, () => {
  const pick = name => [...document.querySelectorAll(".pick")]
    .find(it => it.textContent === name).click();
  const facts = () => Object.fromEntries([...document.querySelectorAll("#one-about dt")].map(it =>
    [it.textContent, it.nextElementSibling.textContent]));
  pick("Leader (Q1RUN-7)");
  assert.deepEqual([byId("one").hidden, byId("one-name").textContent],
    [false, "Leader (Q1RUN-7) station"]);
  const of = facts();
  assert.deepEqual([of["last heard"], of.sent, of.symbol, of.place, of.locator, of.says, of.comment,
    of.kinds], ["18:10:00 by RX1", "2", "car", "54.52000, -3.45000", "IO84gm", "220 m high",
    "at CP 2", "2 position"]);
  assert.deepEqual(cells("places", 5), [
    ["18:10:00", "54.5200, -3.4500", "220 m high", "at CP 2", "RX1"],
    ["18:00:00", "54.5000, -3.5000", "88\u00b0, 67 km/h, 100 m high", "on the way",
      "HILL, COAST"]]);
  assert.deepEqual(textsOf("#one-graphs figcaption"), ["height m, last 220 m"]);
  assert.equal(document.querySelectorAll("#frames tbody tr").length, 2);
  pick("Q1MED");
  assert.equal(facts()["from Leader (Q1RUN-7)"], "10.2 km, 289\u00b0");
  assert.equal(document.querySelector("#things .picked th").textContent, "Q1MED");
  byId("one-close").click();
  assert.deepEqual([byId("one").hidden, page.picked], [true, null]);
  pick("Q1WX");
  assert.deepEqual(textsOf("#one-graphs figcaption"),
    ["temperature \u00b0C, last 20 \u00b0C", "wind, and gusts m/s, last 0 m/s",
      "humidity %, last 70 %"]);
  // the lines of a graph stay in its picture, and its points on its lines' scale
  const [svg] = document.querySelectorAll("#one-graphs svg"), rules = svg.querySelectorAll(".rule");
  const [, , wide, high] = svg.getAttribute("viewBox").split(" ").map(Number);
  const spans = [...rules].map(it => /^M([\d.]+) ([\d.]+)H([\d.]+)$/.exec(it.getAttribute("d")));
  assert.ok(rules.length > 1 && spans.every(it => it && Number(it[1]) < Number(it[3]) &&
    Number(it[3]) <= wide && Number(it[2]) <= high), `${spans}`);
  // its time is as wide as the rules: both reports are 20 minutes behind its begin
  const [, begin, , end] = spans[0].map(Number);
  const points = svg.querySelector(".line").getAttribute("d").slice(1).split("L")
    .map(it => Number(it.split(" ")[0]));
  assert.deepEqual(points.map(it => it.toFixed(1)), [1200, 1260].map(it =>
    (begin + (end - begin) * it / 4000).toFixed(1)));
  assert.equal(facts().weather, "calm, 20 \u00b0C, humidity 70 % at 18:21:00");
  pick("Q1WX");
});
test("a name keeps its side in a map of one size", { skip }, () => {
  const { map, layers: { stations } } = aprsbook, { view } = map, { width, height } = view;
  const { by } = stations.sides, sideNow = () => (map.paint(), by.get(key));
  map.fit();
  map.paint();
  const { key } = stations.marks.find(it => it.thing.name === "Q1MED").thing, first = by.get(key);
  assert.equal(first, 0);
  // four pixels beside the mark, which reaches ten far, and seventeen with a ring
  const isBeside = stations.marks.filter(it => by.get(it.thing.key) === 0).map(({ thing, x }) =>
    [thing.urgent ? 21 : 14, pen.texts.findLast(it => it[0] === thing.label)?.[1] - x]);
  assert.ok(isBeside.some(it => it[0] === 14));
  for (const [far, at] of isBeside) assert.ok(Math.abs(at - far) < 1e-9, `${at} is not ${far}`);
  for (const other of [{ width: width + 1 }, { height: height + 1 }]) {
    by.set(key, 1);
    assert.equal(sideNow(), 1);
    Object.assign(view, other);
    assert.equal(sideNow(), first);
    Object.assign(view, { width, height });
    map.paint();
  }
});
test("a tap beside all marks puts together what fanned out, and it is seen", { skip }, () => {
  const { layers: { stations }, map } = aprsbook;
  let painted = 0;
  const surface = { view: map.view, paintSoon: () => painted++, closer() {} };
  map.fit();
  map.paint();
  const lie = stations.marks.map(it => [it.x, it.y]);
  // two of them lie in one place
  Object.assign(stations.marks[1], { x: lie[0][0], y: lie[0][1] });
  const { key } = stations.marks[0].thing;
  stations.tap(...lie[0], surface);
  assert.deepEqual([stations.fan.keys.includes(key), stations.fan.keys.length, painted],
    [true, 2, 1]);
  stations.tap(-500, -500, surface);
  assert.deepEqual([stations.fan.isOpen, painted], [false, 2]);
  map.paint();
  assert.deepEqual(stations.marks.map(it => [it.x, it.y]), lie);
});
test("what is chosen of the look is kept for the next page", { skip }, () => {
  const keptOf = name => localStorage.getItem(`aprsbook ${name}`);
  for (const [field, value, name, other] of [["place-form", "utm", "form", ""],
    ["miles", true, "miles", false], ["call", "Q1NET", "call", ""]]) {
    enter(field, value);
    assert.equal(keptOf(name), value === true ? "on" : value);
    enter(field, other);
    assert.equal(keptOf(name), "");
  }
});
test("what is far from the others is counted until the map is moved", { skip }, () => {
  const { map } = aprsbook, { layers } = map, said = () => byId("far").textContent;
  map.layers = [...layers, { leads: true, places: () => [vectorOf(10, 10)], paint() {} }];
  const far = "1 place far from the others not in view; \u201call\u201d shows all.";
  for (const leave of [() => map.move(60, 0), () => map.zoom(2), () => map.fit(true)]) {
    map.fit();
    assert.equal(said(), far);
    leave();
    map.turn();
    assert.equal(said(), "");
  }
  map.layers = layers;
  map.fit();
  assert.equal(said(), "");
});
test("miles, local time and forms of places stand wherever one is written", { skip }, () => {
  enter("miles", true);
  enter("place-form", "locator");
  assert.ok(textsOf("#things .where").includes("IO84gm"));
  assert.ok(textsOf("#things .about").some(it => it.includes("722 ft high")));
  enter("miles", false);
  enter("place-form", "");
  const { TZ } = process.env;
  process.env.TZ = "Asia/Tokyo";
  enter("local", true);
  assert.match(byId("about").textContent, /^2024-06-22 03:00:00 to 04:06:40 UTC\+09:00/);
  assert.equal(byId("zone").textContent, "All times are UTC+09:00.");
  // what was chosen outlives loading again
  assert.equal(new URLSearchParams(location.hash.slice(1)).get("time"), "local");
  enter("local", false);
  assert.equal(new URLSearchParams(location.hash.slice(1)).get("time"), null);
  process.env.TZ = TZ || "";
});
test("a part of the time is shown, and what wants doing is of all of it", { skip }, () => {
  enter("since", "1");
  assert.match(byId("about").textContent, /^2024-06-21 18:10:00 to 19:06:40 UTC . 10 trans/);
  assert.ok(textsOf("#news > *").includes("EMERGENCY: Q1MED, 18:11:40"));
  enter("since", "0");
  assert.match(byId("about").textContent, /11 transmissions/);
});
test("passing times stand by checkpoints, and are sorted as numbers", { skip }, async () => {
  const { bring, takeAway } = await import("../../page/src/app/add-layer.js");
  await bring("points.txt", "Tarn 54.51 -3.475 800\nMoor 10 10 50");
  await until(() => document.querySelector("#passed-box tbody tr"));
  const heads = [...document.querySelectorAll("#passed-box thead th")];
  assert.deepEqual(heads.map(it => [it.textContent, it.className]),
    [["no.", ""], ["name", ""], ["Tarn", "num"], ["Moor", "num"]]);
  // half of the way is 1.96 km, of which 0.8 km are within the circle
  const leader = ["7", "Leader (Q1RUN-7)", "~18:02:57", ""], post = ["", "CP 2", "18:13:20", ""];
  assert.deepEqual(cells("passed-box", 4), [leader, post]);
  // the last one first, as of each column of numbers
  for (const [order, lines] of [["descending", [post, leader]], ["ascending", [leader, post]]]) {
    heads[2].querySelector("button").click();
    assert.deepEqual([heads[2].getAttribute("aria-sort"), cells("passed-box", 4)], [order, lines]);
  }
  assert.deepEqual(cells("visits-box", 4), [["Tarn", "1", "Leader (Q1RUN-7)", "~18:02:57"],
    ["Tarn", "2", "CP 2", "18:13:20"]]);
  assert.match(byId("passed-told").textContent, /^Nobody passed Moor: /);
  takeAway(/^points/);
  assert.deepEqual(page.points, []);
});
test("the form has messages, bulletins and own lines, and is filled anew", { skip }, () => {
  byId("ics-open").click();
  assert.deepEqual([byId("ics").hidden, byId("ics-incident").value], [false, "Fell race"]);
  assert.match(byId("own-at").value, /^2024-06-21T19:06:40/);
  assert.equal(byId("ics-period").textContent,
    "2024-06-21 18:00:00 UTC to 2024-06-21 19:06:40 UTC");
  assert.deepEqual(cells("ics-sheets", 6), [
    ["1", "18:21:40", "Q1BASE", "1", "Leader (Q1RUN-7)", "where are you? (acknowledged)"],
    ["2", "18:23:20", "Leader (Q1RUN-7)", "2", "Q1BASE", "at CP 2 (unanswered)"],
    ["3", "18:25:00", "Q1BASE", "", "BLN1", "start at 9"]]);
  byId("own-add").click();
  assert.equal(byId("own-told").textContent, "A line has a time and a message.");
  byId("own-at").value = "2024-06-21T18:22:00";
  byId("own-from").value = "Net";
  byId("own-text").value = "12 needs water";
  byId("own-add").click();
  assert.deepEqual(cells("ics-sheets", 6)[1],
    ["2", "18:22:00", "Net", "", "", "12 needs water take away"]);
  assert.deepEqual([page.own.lines.length, byId("own-text").value], [1, ""]);
  document.querySelector("#ics-sheets button").click();
  assert.deepEqual([page.own.lines.length, cells("ics-sheets", 1).length], [0, 3]);
  byId("ics-close").click();
  assert.equal(byId("ics").hidden, true);
});
test("the map has tracks, marks and names, the course, graticule and scale", { skip }, () => {
  pen.calls.length = 0;
  aprsbook.map.paint();
  const names = pen.texts.map(it => it[0]);
  for (const it of ["Leader (Q1RUN-7)", "Q1MED", "CP 2", "Water", "Start"])
    assert.ok(names.includes(it), it);
  const { marks } = aprsbook.layers.stations;
  assert.deepEqual(marks.map(it => it.thing.name), ["Old", "Water", "CP 2", "Q1RUN-7", "Q1MED"]);
  const at = name => marks.find(it => it.thing.name === name);
  const arcs = radius => pen.of("arc").filter(it => it.args[2] === radius)
    .map(it => [it.args[0], it.args[1]]);
  // who is in need has a ring, stations are round and objects square
  assert.deepEqual(arcs(16), [[at("Q1MED").x, at("Q1MED").y]]);
  assert.ok(arcs(9.5).some(([x, y]) => x === at("Q1RUN-7").x && y === at("Q1RUN-7").y));
  assert.deepEqual(pen.of("rect").map(it => it.args), ["Old", "CP 2"].map(it =>
    [at(it).x - 9, at(it).y - 9, 18, 18]));
  // the scale stands in the corner, and its line below its text
  const [text, x, y] = pen.texts.at(-1);
  assert.deepEqual([text, x + 6 * text.length, y], ["5 km", 588, 373]);
  assert.deepEqual(pen.of("lineTo").slice(-1)[0].args, [588, 378]);
  assert.deepEqual(pen.of("moveTo").slice(-1)[0].args[1], 378);
  // the course is wide and pale
  assert.ok(pen.of("stroke").some(it => it.lineWidth === 4 && it.globalAlpha === 0.35 &&
    it.strokeStyle === "soft"));
  for (const side of [/^54\.\d+\u00b0N$/, /^3\.\d+\u00b0W$/])
    assert.ok(names.some(it => side.test(it)), String(side));
});
test("a tap picks, what is measured is said, and keys move the map", { skip }, () => {
  const { map, layers: { stations, measure } } = aprsbook;
  const key = it => map.node.dispatchEvent(new KeyboardEvent("keydown", { key: it }));
  const mark = stations.marks.find(it => it.thing.name === "Q1MED");
  map.tap(mark.x, mark.y);
  assert.equal(page.picked, "station Q1MED");
  map.tap(mark.x, mark.y);
  assert.equal(page.picked, null);
  const tip = map.tip(mark.x + 3, mark.y).map(it => it.textContent ?? it);
  assert.deepEqual(tip, ["Q1MED", " 18:11:40", "ambulance", "emergency"]);
  assert.deepEqual(map.tip(5, 5), []);
  key("m");
  assert.deepEqual([measure.isOn, byId("way").textContent],
    [true, "measure: click where it begins"]);
  map.tap(100, 100);
  map.tap(200, 100);
  assert.match(byId("way").textContent, /^[\d.]+ km at 09\d\u00b0$/);
  key("Backspace");
  assert.equal(byId("way").textContent, "measure: click where it ends");
  key("m");
  assert.equal(byId("way").textContent, "");
  const { scale } = map.view;
  key("+");
  assert.ok(Math.abs(map.view.scale / scale - 1.3) < 1e-9 && !map.fitted);
  assert.match(location.hash, /view=/);
  key("0");
  assert.ok(map.fitted && Math.abs(map.view.scale / scale - 1) < 1e-9);
  key("f");
  assert.deepEqual([map.isFull, byId("fill").getAttribute("aria-pressed")], [true, "true"]);
  key("f");
});
/** An event of a pointer, which this window has none of. */
const pointer = (kind, of) => Object.assign(new Event(kind, { bubbles: true, cancelable: true }),
  { pointerId: 7, button: 0, clientX: 0, clientY: 0, ...of });
test("the edge of the map follows the pointer that took it, and keys", { skip }, () => {
  const edge = byId("edge"), { style } = document.documentElement, held = new Set();
  Object.assign(edge, { setPointerCapture: id => held.add(id),
    hasPointerCapture: id => held.has(id) });
  edge.dispatchEvent(pointer("pointermove", { clientY: 300 }));
  assert.equal(style.getPropertyValue("--map-high"), "");
  edge.dispatchEvent(pointer("pointerdown"));
  edge.dispatchEvent(pointer("pointermove", { clientY: 300 }));
  assert.equal(style.getPropertyValue("--map-high"), "300px");
  edge.dispatchEvent(pointer("pointermove", { pointerId: 8, clientY: 350 }));
  assert.equal(style.getPropertyValue("--map-high"), "300px");
  assert.match(location.hash, /high=300/);
  // the map is 400 pixels high
  for (const [key, high] of [["ArrowDown", "440px"], ["ArrowUp", "360px"], ["Home", ""]]) {
    edge.dispatchEvent(new KeyboardEvent("keydown", { key, bubbles: true }));
    assert.equal(style.getPropertyValue("--map-high"), high);
  }
});
test("on paper colours are those of paper, and the screen's thereafter", { skip }, () => {
  const { classList } = document.documentElement, { map } = aprsbook, read = map.readColours;
  let times = 0;
  map.readColours = () => { times++; };
  dispatchEvent(new Event("beforeprint"));
  assert.deepEqual([classList.contains("printed"), times], [true, 1]);
  dispatchEvent(new Event("afterprint"));
  assert.deepEqual([classList.contains("printed"), times], [false, 2]);
  map.readColours = read;
});
test("Escape closes a menu first, and then leaves the map that fills the window", { skip }, () => {
  const { map } = aprsbook, menu = byId("looks");
  const escape = () => dispatchEvent(new KeyboardEvent("keydown", { key: "Escape" }));
  map.fill(true);
  menu.open = true;
  escape();
  assert.deepEqual([menu.open, map.isFull], [false, true]);
  escape();
  assert.equal(map.isFull, false);
  escape();
  assert.equal(map.isFull, false);
});
test("the button of the map fits what is near first, and then all", { skip }, () => {
  const { map } = aprsbook, fits = [], own = map.fit;
  map.fit = of => { fits.push(of); };
  for (const [fitted, isAll, far] of [[false, false, 3], [true, false, 3], [true, true, 3],
    [true, false, 0]]) {
    Object.assign(map, { fitted, isAll, far });
    byId("fit").click();
  }
  map.fit = own;
  assert.deepEqual(fits, [false, true, false, false]);
  map.fit();
});
test("the clock goes back, and forth again to all", { skip }, () => {
  enter("clock", "300", "input");
  assert.deepEqual([byId("then").textContent, aprsbook.layers.stations.until],
    ["until 18:20:00", page.choices.until]);
  assert.match(location.hash, /clock=/);
  enter("clock", "1000", "input");
  assert.deepEqual([byId("then").textContent, page.choices.until], ["19:06:40", Infinity]);
});
test("the news lead to what they name, also where it is hidden", { skip }, async () => {
  enter("find", "nothing of this", "input");
  enter("clock", "10", "input");
  const news = [...document.querySelectorAll("#news > *")].find(it => /EMERG/.test(it.textContent));
  news.dispatchEvent(new Event("click", { bubbles: true }));
  await until(() => page.picked);
  assert.deepEqual([page.picked, page.choices.find, byId("find").value, page.choices.until],
    ["station Q1MED", "", "", Infinity]);
  byId("one-close").click();
});
test("what is saved is what is shown, and the menu has all of it", { skip }, () => {
  assert.deepEqual(textsOf("#saves button"), ["places (CSV)", "messages (CSV)",
    "places and tracks (GPX)", "places and tracks (GeoJSON)", "places and tracks (KML)",
    "table (TSV)"]);
  assert.match(aprsbook.savedText("messages (CSV)"), /Q1RUN-7,.*,Leader,/);
  assert.equal(aprsbook.savedText("table (TSV)"), DATA.rows);
});
test("a button saves a file with a name of its own", { skip }, async () => {
  const saved = [], { prototype } = window.HTMLAnchorElement, { click } = prototype;
  prototype.click = function save() { saved.push(this.download); };
  for (const it of document.querySelectorAll("#saves button")) it.click();
  await until(() => saved.length === 6);
  prototype.click = click;
  assert.deepEqual(saved.sort(), ["messages.csv", "net.geojson", "net.gpx", "net.kml", "places.csv",
    "table.tsv"]);
});
test("maps and rosters that are brought are said, drawn and taken away", { skip }, async () => {
  const bring = async (name, text) => {
    const { bringAll } = await import("../../page/src/app/add-layer.js");
    await bringAll([Object.assign(new Blob([text]), { name })]);
    return byId("told").textContent;
  };
  assert.equal(await bring("x.kml", "<kml><Placemark><Point><coordinates>-3.5,54.5</coordinates>" +
    "</Point></Placemark></kml>"), "x.kml: a map");
  assert.equal(aprsbook.layers.vectors.all.length, 2);
  assert.equal(await bring("names.txt", "Q1MED Doctor\nQ1RUNNER nine\n"),
    "names.txt: 1 call, line 2: Q1RUNNER is no call; x.kml: a map");
  assert.ok(textsOf("#things tbody th").includes("Doctor (Q1MED)"));
  assert.match(await bring("bad.gpx", "<gpx>"), /^bad\.gpx: not well-formed XML/);
  byId("away").click();
  assert.deepEqual([aprsbook.layers.vectors.all.length, page.brought, byId("told").textContent],
    [1, [], ""]);
});
test("a large table is drawn in slices, and what is given up ends with the next", { skip },
  async () => {
    const rowsOf = stations => aprsbook.tableOf(table(Array.from({ length: 6000 }, (_, k) =>
      place(k, `Q1A-${k % stations}`, 54 + k / 1e5, -3, { text: "x".repeat(100) }))));
    const [first, second] = [5, 7].map(it => aprsbook.show({ ...aprsbook.data,
      rows: rowsOf(it) }));
    await first;
    assert.deepEqual([aprsbook.net.things.length, aprsbook.net.rows.length], [7, 6000]);
    await second;
  });
