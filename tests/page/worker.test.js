import assert from "node:assert/strict";
import { test } from "node:test";
import { bytesOf, textOf } from "./stand.js";
import { row, table } from "./tables.js";

/**
 * Answers of the worker, which runs an instance by hand in place of a module's: it writes a text,
 * whatever it is asked.
 */
async function answered(text, asked) {
  const { Instance } = WebAssembly, given = [], before = globalThis.postMessage;
  WebAssembly.Instance = class {
    constructor() {
      const memory = { buffer: new ArrayBuffer(65536), grow(pages) {
        memory.buffer = new ArrayBuffer(memory.buffer.byteLength + Number(pages) * 65536);
      } };
      const aprs_table = (...of) => {
        const [answer, output] = [of[0], of.at(-4)].map(Number), bytes = bytesOf(text);
        new Uint8Array(memory.buffer).set(bytes, output);
        new DataView(memory.buffer).setBigUint64(answer + 24, BigInt(bytes.length), true);
      };
      this.exports = { memory, aprs_table, __heap_base: { value: 1024 } };
    }
  };
  globalThis.postMessage = (answer, buffers) => given.push([answer, buffers]);
  try {
    await import("../../page/src/main-worker.js");
    await globalThis.onmessage({ data: [1, "load", {}] });
    await globalThis.onmessage({ data: [2, "run", { options: 30, ...asked }] });
    assert.deepEqual(given[0][0], [1, true, ""]);
    return given[1];
  } finally {
    WebAssembly.Instance = Instance;
    globalThis.postMessage = before;
  }
}
const book = bytesOf("APRSBOOK 3 30\nT a\nT b\nEND 2\n");
const rows = table([row("status", 0, "Q1A"), row("ack", 1, "Q1B")]);

test("of a book that is kept the rows come with the book of what tells of messages", async () => {
  const [[, got, fault], buffers] =
    await answered(rows, { command: "rows", inputs: [book], keeps: true });
  assert.deepEqual([fault, got.status, textOf(got.bytes)], ["", 0, rows]);
  assert.equal(textOf(got.said), "APRSBOOK 3 30\nT b\nEND 1\n");
  // all that is handed over is so once
  for (const it of [got.bytes, got.said, got.inputs[0], got.read.columns.kind])
    assert.equal(buffers.filter(one => one === it.buffer).length, 1);
});
test("of another table, and of what is no book of these rows, nothing else comes", async () => {
  const [[, got]] = await answered(rows, { command: "messages", inputs: [book], keeps: true });
  assert.deepEqual([textOf(got.bytes), got.said, got.read], [rows, undefined, undefined]);
  const log = bytesOf("T a\nT b\n");
  const [[, other]] = await answered(rows, { command: "rows", inputs: [log], keeps: true });
  assert.deepEqual([other.status, other.said], [0, undefined]);
});
