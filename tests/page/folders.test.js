import assert from "node:assert/strict";
import { test } from "node:test";
import { filesOf, handleOf } from "../../page/src/intake/folders.js";

const fileNamed = name => ({ isFile: true, name, file: done => done({ name }) });
const folderOf = (name, entries) => ({ isDirectory: true, name, createReader: () => {
  const parts = [entries, []];
  return { readEntries: done => done(parts.shift()) };
} });
const dropOf = (...entries) => ({ files: entries.map(({ name }) => ({ name })),
  items: entries.map(it => ({ kind: "file", webkitGetAsEntry: () => it })) });

test("files of folders are found with their ways, be they very many", async () => {
  const many = Array.from({ length: 200000 }, (_, k) => fileNamed(`${k}.png`));
  const got = await filesOf(dropOf(fileNamed("a.log"), folderOf("map", [folderOf("9", many),
    fileNamed(".hidden")])));
  assert.equal(got.length, many.length + 1);
  assert.deepEqual([got[0].name, got[1].way, got.at(-1).way],
    ["a.log", "map/9/0.png", "map/9/199999.png"]);
});
test("a folder that can't be read is there as a folder", async () => {
  const torn = { isDirectory: true, name: "torn",
    createReader: () => ({ readEntries: (_, fail) => fail(new Error("no")) }) };
  assert.deepEqual(await filesOf(dropOf(torn)), [{ name: "torn", isFolder: true }]);
});
test("what a browser reads a file again by is kept, where it gives that", async () => {
  const handle = { kind: "file" }, drop = dropOf(fileNamed("a.log"), fileNamed("b.log"),
    fileNamed("c.log"));
  drop.items[0].getAsFileSystemHandle = async () => handle;
  drop.items[1].getAsFileSystemHandle = () => Promise.reject(new Error("no"));
  const [a, b, c] = await filesOf(drop);
  assert.deepEqual([handleOf(a), handleOf(b), handleOf(c)], [handle, undefined, undefined]);
});
