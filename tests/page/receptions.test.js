import assert from "node:assert/strict";
import { test } from "node:test";
import { answering, bytesOf, textOf } from "./stand.js";
import { apartLog, repeatsBy } from "../../page/src/intake/receptions.js";
import { repeatsOf } from "../../page/src/net/hearings.js";
import { digipeatersOf, repeatsIn } from "../../page/src/net/repeats.js";
import { tableOf } from "../../page/src/net/table-lines.js";
import { atOnce, STEP } from "../../page/src/util/tasks.js";
import { isoText } from "../../page/src/util/time.js";
import { beginWorkers } from "../../page/src/worker/pool.js";
import { limits } from "../../page/src/worker/sources.js";
import { place, table } from "./tables.js";

test("a digipeater is named, and an alias only where nothing else is there", () => {
  for (const [path, wanted] of [["DB0HIL*,WIDE1*,DB0TOP*,WIDE2-1", "DB0HIL DB0TOP"],
    ["WIDE1*", "WIDE1"], ["WIDE1-1,DB0HIL", ""], ["RELAY*,TRACE3-2*", "TRACE3-2"],
    ["WIDER*", "WIDER"], ["", ""]])
    assert.equal(digipeatersOf(path.split(",")).join(" "), wanted, path);
});
test("a frame counts once, by the receiver that heard most of its kind", () => {
  const heard = (second, receivers, via, fields) =>
    place(second, "Q1A", 54, -3, { receivers, via, ...fields });
  const lines = atOnce(repeatsIn(tableOf(table([heard(0, "A", "DB0HIL*"), heard(2, "B", "DB0HIL*"),
    heard(4, "B", "DB0HIL*,DB0TOP*"), heard(6, "B", ""), heard(8, "B", "TCPIP,Q1G*",
      { gate: "Q1G" })]))));
  assert.equal(lines, "DB0HIL\tQ1A\t2\nDB0TOP\tDB0HIL\t1\n");
  const pairs = repeatsOf(lines);
  assert.deepEqual(["Q1A", "DB0HIL", "all"].map(it => [pairs.get(it, "DB0HIL"),
    pairs.get(it, "DB0TOP")]), [[2, 0], [0, 1], [2, 1]]);
});
test("each line of logs is there once, in order, with a moment that no other is near", () => {
  const logs = ["2024-06-21T18:00:02Z B c0\n2024-06-21T18:00:01Z A c1\n",
    "2024-06-21T18:00:01Z A c1\n\n"].map(bytesOf);
  assert.equal(textOf(atOnce(apartLog(logs))),
    "1970-01-01T00:00:00.000Z A c1\n1970-01-01T00:00:02.000Z B c0\n");
});
test("what stands behind a moment stays byte by byte, whatever spelling the moment has", () => {
  const log = bytesOf("2024-06-21T18:00:01Z A c1 c2\n2024-06-21T18:00:01.500Z B C1\n");
  assert.equal(textOf(atOnce(apartLog([log]))),
    "1970-01-01T00:00:00.000Z A c1 c2\n1970-01-01T00:00:02.000Z B C1\n");
});
test("a reception is one in both spellings of its moment, and another frame is another", () => {
  const logs = ["2024-06-21T18:00:01Z A c1\n2024-06-21T18:00:01Z A c2\n",
    "2024-06-21T18:00:01.000Z A c1\n2024-06-21T18:00:01.001Z A c1\n"].map(bytesOf);
  assert.deepEqual(textOf(atOnce(apartLog(logs))).split("\n").map(it => it.slice(24)),
    [" A c1", " A c2", " A c1", ""]);
});
test("the page goes on while the lines of a large log are put apart", () => {
  const many = 3 * STEP, steps = apartLog([bytesOf(Array.from({ length: many }, (_, k) =>
    `2024-06-21T18:00:01Z A ${k}\n`).join(""))]);
  let pauses = 0, it = steps.next();
  for (; !it.done; it = steps.next()) pauses++;
  assert.equal(pauses, 6);
  assert.ok(textOf(it.value).endsWith(`\n${isoText(2 * many - 2)} A 9999\n`));
});
test("receptions are counted of logs alone that aren't too large, and as long as it is wanted",
  async () => {
    await beginWorkers("", null, () => {});
    const log = { kind: "log", taken: bytesOf("2024-06-21T18:00:02Z B c0\n") };
    const asked = [], answer = given => {
      asked.push([given.command, given.options]);
      return { status: 0, bytes: tableOf(table([place(0, "Q1A", 1, 2, { via: "Q1D*" })])) };
    };
    await answering({ answer }, async () => {
      assert.equal(await repeatsBy([log], () => true), "Q1D\tQ1A\t1\n");
      assert.deepEqual(asked, [["rows", 1]]);
      assert.equal(await repeatsBy([log], () => false), undefined);
      assert.equal(await repeatsBy([log, { ...log, kind: "book" }], () => true), undefined);
      assert.equal(await repeatsBy([{ ...log, taken: new Blob(["x"]) }], () => true),
        undefined);
      const { alone } = limits;
      limits.alone = 5;
      assert.equal(await repeatsBy([log], () => true), undefined);
      limits.alone = alone;
    });
    await answering({ answer: () => ({ status: 1, bytes: bytesOf("") }) }, async () =>
      assert.equal(await repeatsBy([log], () => true), undefined));
  });
