import assert from "node:assert/strict";
import { test } from "node:test";
import { partOf, saidIn } from "../../page/src/net/book-slices.js";
import { columnsOf } from "../../page/src/net/table-reader.js";
import { tableOf } from "../../page/src/net/table-lines.js";
import { atOnce } from "../../page/src/util/tasks.js";
import { bytesOf, textOf } from "./stand.js";
import { row, table } from "./tables.js";

const HEAD = "APRSBOOK 3 30\n", lines = ["T a\n", "T b\n", "T c\n", "T d\n"];
const book = bytesOf(HEAD + lines.join("") + "END 4\n");
const part = (wanted, n = 4, of = book) => {
  const got = partOf(of, n, k => wanted.includes(k));
  return got && textOf(got);
};

test("the rows that are wanted are a book, with how many they are", () => {
  assert.equal(part([0, 1, 2, 3]), textOf(book));
  assert.equal(part([1, 2]), `${HEAD}T b\nT c\nEND 2\n`);
  assert.equal(part([0, 3]), `${HEAD}T a\nT d\nEND 2\n`);
  assert.equal(part([]), `${HEAD}END 0\n`);
  assert.equal(part([], 0, bytesOf(`${HEAD}END 0\n`)), `${HEAD}END 0\n`);
});
test("what has another number of rows than its table is left whole", () => {
  for (const n of [0, 3, 5, 6]) assert.equal(part([0], n), null);
  assert.equal(part([0], 4, book.subarray(0, -1)), null);
  assert.equal(part([], 0, bytesOf("")), null);
  assert.equal(part([], 0, bytesOf("END 0\n")), null);
});
test("the table's kinds say what tells of messages, in whatever order it was heard", () => {
  const kinds = ["message", "position", "rej", "ack"], rows = kinds.map((it, k) =>
    row(it, 9 - k, "Q1A", { text: "message" }));
  const { columns } = atOnce(columnsOf(tableOf(table(rows))));
  assert.equal(textOf(saidIn(book, columns)), `${HEAD}T a\nT c\nT d\nEND 3\n`);
  assert.equal(saidIn(book.subarray(0, -6), columns), null);
});
