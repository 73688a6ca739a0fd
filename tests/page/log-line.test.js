import assert from "node:assert/strict";
import { test } from "node:test";
import { hasName, linesOf } from "../../page/src/formats/log-line.js";

const bytesOf = text => Uint8Array.from(text, it => it.charCodeAt(0));
/** The parts of each line: moment, name where there is one, and what stands behind the moment. */
const partsOf = text => [...linesOf(bytesOf(text))].map(it => [text.slice(it.begin, it.momentEnd),
  hasName(it) ? text.slice(it.nameBegin, it.nameEnd) : null, text.slice(it.momentEnd, it.end)]);

test("a moment has 20 bytes, or 24 with milliseconds, and the name stands behind it", () => {
  assert.deepEqual(partsOf("2024-06-21T18:00:00Z RX1 c0\n2024-06-21T18:00:00.250Z A_b-9 \n"), [
    ["2024-06-21T18:00:00Z", "RX1", " RX1 c0"],
    ["2024-06-21T18:00:00.250Z", "A_b-9", " A_b-9 "]]);
});
test("a name has at most 16 bytes, and one that isn't ended is none", () => {
  const moment = "2024-06-21T18:00:00Z";
  for (const [rest, name] of [[` ${"N".repeat(16)} c0`, "N".repeat(16)],
    [` ${"N".repeat(17)} c0`, null], [" RX1", null], ["  c0", null], ["", null]])
    assert.equal(partsOf(`${moment}${rest}\n`)[0][1], name, rest);
  // what stands in the next line ends no name of this one
  assert.deepEqual(partsOf(`${moment} RX1\n${moment} RX2 c0\n`).map(it => it[1]), [null, "RX2"]);
});
test("lines follow each other to the end, also a last one that isn't ended", () => {
  const lines = [...linesOf(bytesOf("a\n\nbc"))];
  assert.deepEqual(lines.map(it => [it.begin, it.end, it.next]), [[0, 1, 2], [2, 2, 3], [3, 5, 5]]);
  assert.deepEqual([...linesOf(bytesOf(""))], []);
});
