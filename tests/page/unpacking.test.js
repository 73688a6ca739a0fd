import assert from "node:assert/strict";
import { test } from "node:test";
import { gzipSync } from "node:zlib";
import { beginningOf, unzipped } from "../../page/src/formats/gunzip.js";

const text = "2024-06-21T18:00:00Z RX1 c000aac0\n".repeat(200);
const blobOf = bytes => new Blob([bytes]);

test("a packed file is unpacked whole, and begins as it does", async () => {
  const { head, all } = await beginningOf(unzipped(blobOf(gzipSync(text))), 100);
  assert.equal(Buffer.from(head).toString(), text.slice(0, 100));
  assert.equal(Buffer.from(await all()).toString(), text);
  const empty = await beginningOf(unzipped(blobOf(gzipSync(""))), 100);
  assert.deepEqual([empty.head.length, (await empty.all()).length], [0, 0]);
});
test("of a file that becomes very large no more is unpacked than is wanted", async () => {
  let asked = 0, isOver = false;
  const pull = control => control.enqueue(new Uint8Array(64 + asked++));
  const stream = new ReadableStream({ pull,
    cancel() { isOver = true; } }, { highWaterMark: 0 });
  const { head, all } = await beginningOf(stream, 100, 1000);
  assert.deepEqual([head.length, asked], [100, 2]);
  await assert.rejects(all, /it has more than 1 GiB/);
  assert.deepEqual([asked, isOver], [15, true]);
});
test("what is torn or no gzip is said", async () => {
  for (const bytes of [gzipSync(text).subarray(0, 60), Buffer.from([31, 139, 1, 2, 3])])
    await assert.rejects(beginningOf(unzipped(blobOf(bytes)), 10).then(it => it.all()),
      /gzip can't unpack it/);
});
