import assert from "node:assert/strict";
import { test } from "node:test";
import {
  clocksOf, comparedIn, FEWEST, medianOf, MOST_COMPARED, pairsOf,
} from "../../page/src/net/clock-offsets.js";
import { hashOf, isSamePart, Parts, textIn, viewOf, Words } from "../../page/src/net/interning.js";
import { tableOf } from "../../page/src/net/table-lines.js";
import { clockWords } from "../../page/src/net/clock-words.js";
import { atOnce } from "../../page/src/util/tasks.js";
import { row, rowsOf } from "./tables.js";

const bytesOf = text => tableOf(text);

test("parts of a table are known by their bytes, each once", () => {
  const bytes = bytesOf("HILL,COAST HILL,COAST HILL"), parts = new Parts(bytes);
  assert.equal(parts.take(0, 10), parts.take(11, 21));
  assert.equal(parts.take(22, 26), parts.take(0, 4));
  assert.notEqual(parts.take(0, 10), parts.take(0, 4));
  assert.deepEqual(parts.texts.filter(Boolean).sort(), ["HILL", "HILL,COAST"]);
  assert.equal(textIn(bytes, 5, 10), "COAST");
  const made = [], words = new Words(bytes, text => made.push(text));
  assert.equal(words.of(0, 4), words.of(22, 26));
  assert.deepEqual(made, ["HILL"]);
});
test("a hash is of the bytes and of what is its own", () => {
  const view = viewOf(bytesOf("abcdefgh abcdefgh abcdefgx"));
  assert.equal(hashOf(view, 0, 8, 1), hashOf(view, 9, 17, 1));
  assert.notEqual(hashOf(view, 0, 8, 1), hashOf(view, 0, 8, 2));
  assert.notEqual(hashOf(view, 0, 8, 1), hashOf(view, 18, 26, 1));
  assert.deepEqual([isSamePart(view, 0, 8, 9, 17), isSamePart(view, 0, 8, 18, 26),
    isSamePart(view, 0, 8, 9, 16)], [true, false, false]);
});
test("the middle of a list, of an even one the second of its two", () => {
  assert.deepEqual([medianOf([3, 1, 2]), medianOf([4, 1, 3, 2])], [2, 3]);
});
test("clocks that differ are found by what both receivers heard", () => {
  // C is an hour ahead of A and B
  const shifts = { A: 0, B: 1, C: 3600 }, lines = [];
  for (let k = 0; k < 8; k++)
    for (const [name, by] of Object.entries(shifts))
      lines.push({ at: 100 * k + by, text: row("position", 100 * k + by, "Q1A",
        { receivers: name, latitude: 54, longitude: -3, text: `no. ${k}` }) });
  lines.sort((a, b) => a.at - b.at);
  const rows = rowsOf(lines.map(it => it.text));
  const count = n => rows.heard.filter(it => it === n).length;
  const heard = rows.lists.map((names, n) => ({ names, heard: count(n) }));
  const pairs = atOnce(pairsOf(rows, -Infinity, heard));
  // each pair heard eight transmissions, be they one row or two
  assert.deepEqual(pairs.map(it => [it.a, it.b, Math.abs(Math.round(it.by)), it.of]),
    [["A", "B", 1, 8], ["A", "C", 3600, 8], ["B", "C", 3599, 8]]);
  const clocks = clocksOf(pairs, 30);
  assert.equal(Math.round(clocks.get("C").by), 3600);
  assert.ok(Math.abs(clocks.get("A")?.by ?? 0) < 5 && FEWEST === 2);
});
test("by how much a clock is ahead is the middle of all, in whatever order they came", () => {
  const middleOf = shifts => {
    const lines = shifts.flatMap((by, k) => [["A", 0], ["B", by]].map(([receivers, shift]) =>
      ({ at: 100 * k + shift, text: row("position", 100 * k + shift, "Q1A",
        { receivers, latitude: 54, longitude: -3, text: `no. ${k}` }) })));
    const rows = rowsOf(lines.sort((a, b) => a.at - b.at).map(it => it.text));
    const heard = rows.lists.map(names => ({ names, heard: shifts.length }));
    return atOnce(pairsOf(rows, -Infinity, heard)).map(it => [it.by, it.of]);
  };
  // of A from B, be B ahead or behind, or both in turn
  assert.deepEqual([[9, 1, 2, 5, 7], [7, 5, 2, 1, 9], [-9, -1, -2, -5, -7], [9, -4, -2, 5, 7]]
    .map(middleOf), [-5, -5, 5, -5].map(it => [[it, 5]]));
});
test("of many receivers those that heard most are compared, in steps", () => {
  const names = Array.from({ length: 2000 }, (_, k) => `R${String(k).padStart(4, "0")}`);
  const heard = [{ names, heard: 20 }, { names: ["R1999", "R0007"], heard: 1 }];
  const compared = comparedIn(heard);
  assert.equal(compared.size, MOST_COMPARED);
  assert.ok(["R1999", "R0007", "R0000"].every(it => compared.has(it)) && !compared.has("R1998"));
  const rows = rowsOf([row("position", 0, "Q1A",
    { receivers: names.join(), latitude: 54, longitude: -3 })]);
  const pairs = atOnce(pairsOf(rows, -Infinity, heard));
  assert.equal(pairs.length, MOST_COMPARED * (MOST_COMPARED - 1) / 2);
  // of few receivers all are compared
  assert.deepEqual([...comparedIn([{ names: ["B", "A"], heard: 1 }])].sort(), ["A", "B"]);
});
test("of two clocks those are named that differ by more than the gap, ahead or behind", () => {
  const pairs = by => [{ a: "A", b: "B", by, of: 3 }];
  assert.deepEqual(clocksOf(pairs(30), 30).get("A"), { by: 30, of: 3, from: [] });
  // two pairs of receivers agree, each to the gap: none of a pair is from the other
  const four = [...pairs(30), { a: "C", b: "D", by: 0, of: 3 }, { a: "A", b: "C", by: 500, of: 3 }];
  assert.deepEqual(clocksOf(four, 30).get("A").from.map(it => [it.b, it.by]), [["C", 500]]);
  const words = by => clockWords({ clock: clocksOf(pairs(by), 30).get("A") }, 30).text;
  assert.deepEqual([words(31), words(-90)], ["+31 s from B", "\u22121 min 30 s from B"]);
  const clock = { by: NaN, of: 3, from: [{ b: "B", by: 0.6 }] };
  assert.equal(clockWords({ clock }, 30).text, "+1 s from B");
});
