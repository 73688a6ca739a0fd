import assert from "node:assert/strict";
import { test } from "node:test";
import { columnsOf, orderOf } from "../../page/src/net/table-reader.js";
import { detailsOf } from "../../page/src/net/rows.js";
import { wordsOf } from "../../page/src/net/details.js";
import { tableOf } from "../../page/src/net/table-lines.js";
import { atOnce } from "../../page/src/util/tasks.js";
import {
  SETTINGS,
  COLUMNS, message, messageTable, moment, netOfLines, place, readMessages, row, rowsOf, table,
  thing,
} from "./tables.js";

test("columns are taken by name, also in another order, with more of them, or fewer", () => {
  const lines = [place(0, "Q1A", 49.0583333, -72.0291667, { text: "hi" })];
  const plain = rowsOf(lines);
  const more = rowsOf(lines.map(it => it.replace("\n", "\tnew\n")), [...COLUMNS, "later"]);
  const turned = [...COLUMNS].reverse();
  const reversed = rowsOf(lines.map(it => it.trimEnd().padEnd(0).split("\t").concat(
    Array(COLUMNS.length).fill("")).slice(0, COLUMNS.length).reverse().join("\t") + "\n"), turned);
  for (const rows of [plain, more, reversed]) {
    assert.equal(rows.length, 1);
    const at = rows.placeOf(0);
    assert.deepEqual([at.north, at.east, at.comment, at.table, at.code, at.source],
      [49.0583333, -72.0291667, "hi", "/", ">", "Q1A"]);
  }
  const few = ["kind", "first", "last", "source"];
  const rows = rowsOf([["status", moment(0), moment(1), "Q1A"].join("\t") + "\n"], few);
  assert.equal(rows.length, 1);
  assert.equal(rows.hasPlace(0), false);
});

test("a row of a kind that isn't known is there, as other", () => {
  const net = netOfLines([row("beacon", 0, "Q1A"), place(1, "Q1A", 54, -3)]);
  assert.equal(net.rows.length, 2);
  assert.equal(net.others, 1);
  assert.equal(thing(net, "Q1A").sent, 2);
  assert.equal(thing(net, "Q1A").rows.kindOf(0), "beacon");
});

test("0, 0 is no fix, and a degree beside it is one", () => {
  const net = netOfLines([place(0, "Q1A", 0, 0), place(1, "Q1B", 0, 1)]);
  assert.deepEqual(net.placed.map(it => it.name), ["Q1B"]);
  assert.equal(thing(net, "Q1A").unfixed, 1);
  assert.equal(thing(net, "Q1A").now, null);
});

test("what a row says comes from the table's columns and not from its comment", () => {
  const said = { course: "88", speed_knots: "36", altitude_m: "376.1232", wind_from: "220",
    wind_mph: "4", gust_mph: "5", temperature_f: "77", humidity: "50", pressure_tenths: "9900",
    says: "returning" };
  assert.deepEqual(wordsOf(detailsOf(said), SETTINGS), [
    "88\u00b0, 67 km/h", "wind from 220\u00b0, 1.8 m/s",
    "gusts of 2.2 m/s", "25 \u00b0C", "humidity 50 %", "990.0 hPa", "376 m high", "returning"]);
  assert.deepEqual(wordsOf(detailsOf({ text: "088/036/A=001234" }), SETTINGS), []);
  // empty isn't nought
  assert.deepEqual(wordsOf(detailsOf({ wind_mph: "", temperature_f: "" }), SETTINGS), []);
  assert.deepEqual(wordsOf(detailsOf({ wind_mph: "0" }), SETTINGS), ["calm"]);
});

test("at one moment the greater receiver decides which place is the last", () => {
  const here = place(5, "Q1A", 54, -3, { receivers: "RX2" });
  const there = place(5, "Q1A", 55, -3, { receivers: "RX1" });
  for (const lines of [[here, there], [there, here]])
    assert.equal(thing(netOfLines(lines), "Q1A").now.north, 54);
});

test("what came of a message is the table's outcome, that of a number for reply-acks too", () => {
  const [a, b, c] = readMessages(messageTable([
    message("Q1A", "Q1B", "help{01}", "unnumbered", 0, { number: "01", outcome: "unanswered" }),
    message("Q1A", "Q1B", "again{02}", "unnumbered", 0, { number: "02", reply_ack: "unanswered",
      outcome: "acknowledged", outcome_moment: moment(9) }),
    message("Q1A", "Q1B", "well", "acknowledged", 0,
      { answer: moment(4), answer_source: "Q1B" })]));
  assert.deepEqual([a.state, b.state, c.state], ["unanswered", "acknowledged", "acknowledged"]);
  assert.deepEqual([a.id, b.id, c.id], ["01", "02", ""]);
  assert.deepEqual([b.answered - b.first, c.answered - c.first], [9, 4]);
  assert.deepEqual([Number.isNaN(a.answered), c.answeredBy], [true, "Q1B"]);
});

test("a place is found in symbols that are a backslash or a colon", () => {
  const rows = rowsOf([place(0, "Q1A", 54, -3, { symbol: "\\x5c\\x5c" }),
    place(0, "Q1B", 54, -3, { symbol: "/:" }), place(0, "Q1C", 54, -3, { symbol: "\\\\n" })]);
  assert.deepEqual([0, 1, 2].map(k => [rows.placeOf(k).table, rows.placeOf(k).code]),
    [["\\", "\\"], ["/", ":"], ["\\", "n"]]);
});

test("of thousands of rows each knows the first one of its station that says the same", () => {
  const said = k => [k % 7, k % 300];
  const lines = Array.from({ length: 3000 }, (_, k) =>
    place(k, `Q1A-${said(k)[0]}`, 54, -3,
      { text: `no. ${said(k)[1]}`, receivers: `RX${k % 40}` }));
  const rows = rowsOf(lines), first = new Map();
  for (let k = 0; k < lines.length; k++) {
    const key = said(k).join();
    if (!first.has(key)) first.set(key, k);
    assert.equal(rows.same[k], first.get(key));
  }
  assert.equal(rows.length, 3000);
  assert.equal(new Set(rows.heard).size, 40);
  assert.equal(rows.record(2999).text, "no. 299");
});

test("a table is read to its end, where its lines become shorter or a last one is torn", () => {
  const long = Array.from({ length: 1000 }, (_, k) =>
    row("status", k, "Q1A", { text: "x".repeat(300) }));
  const short = Array.from({ length: 9000 }, (_, k) => row("status", 1000 + k, "Q1\u00dc"));
  const rows = rowsOf([...long, ...short, row("status", 10000, "Q1LAST").slice(0, -40)]);
  assert.equal(rows.length, 10001);
  assert.deepEqual([rows.record(0).text.length, rows.record(9999).source, rows.things.length],
    [300, "Q1\u00dc", 3]);
});

test("moments of years stand in order, equal ones as they come", () => {
  const year = 365 * 86400, many = 2000;
  for (const span of [1, 1000, year / 10, 300 * year]) {
    const moments = Float64Array.from({ length: many + 5 }, (_, k) =>
      1.7e9 + Math.round(k * 7919 % 499 / 499 * span * 1000) / 1000);
    const order = orderOf(moments, many), sorted = Array.from({ length: many }, (_, k) => k)
      .sort((a, b) => moments[a] - moments[b] || a - b);
    assert.deepEqual([...order], sorted, `${span}`);
  }
});
test("rows stand by their first moment, equal ones as in the table", () => {
  const rows = rowsOf([5, 3, 3, 9, 1].map((second, k) => row("status", second, `Q1A-${k}`)));
  assert.deepEqual([...rows.order], [4, 1, 2, 0, 3]);
  const moments = [-Infinity, rows.first[1], rows.first[1] + 0.5, Infinity];
  assert.deepEqual(moments.map(it => [...rows.since(it)]),
    [[4, 1, 2, 0, 3], [1, 2, 0, 3], [0, 3], []]);
});
test("what is needed only while a table is read isn't handed over", () => {
  const { columns } = atOnce(columnsOf(tableOf(table([place(0, "Q1A", 1, 2)]))));
  assert.deepEqual([columns.hash.length, columns.rest.length, columns.order.length], [0, 0, 1]);
  // a buffer can be handed over once
  assert.equal(new Set(Object.values(columns).map(it => it.buffer)).size,
    Object.keys(columns).length);
});
