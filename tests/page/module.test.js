// The module, by the host that the page and the command for Node run it in: where `make wasm` built
// none, it is that of the release. MODULE in the environment is another file of it.
import assert from "node:assert/strict";
import { spawnSync } from "node:child_process";
import fs from "node:fs";
import os from "node:os";
import path from "node:path";
import { test } from "node:test";
import v8 from "node:v8";
import { fileURLToPath } from "node:url";
import { run } from "../../page/src/worker/wasm-host.js";

const TOP = fileURLToPath(new URL("../..", import.meta.url));
const COMMAND = new URL("../../page/src/main-node.js", import.meta.url).href;
function fileOfModule() {
  if (process.env.MODULE) return process.env.MODULE;
  const { status, stdout } = spawnSync("build/module.py", { cwd: TOP, encoding: "utf8" });
  return status === 0 ? path.join(TOP, stdout.trim()) : "";
}
v8.setFlagsFromString("--experimental-wasm-memory64");
const file = fileOfModule(), skip = file ? false : "needs a module of these sources";
const module = file ? new WebAssembly.Module(fs.readFileSync(file)) : null;
const bytesOf = text => new TextEncoder().encode(text);
const textOf = bytes => new TextDecoder().decode(bytes);
const CAPTURE = ["receiver", "moment"];
/** `N0CALL-7>APRS:>Hi`, as the README has it, and a message with a number. */
const FRAME = "c00082a0a4a64040e09c60868298986f03f03e4869c0";
const line = (clock, receiver, frame = FRAME) => `2024-05-01T${clock}Z ${receiver} ${frame}\n`;
const RX1 = line("12:00:00", "RX1"), RX2 = line("12:00:02", "RX2");
const done = (command, options, ...texts) => {
  const { bytes, ...got } = run(module, command, options, texts.map(bytesOf));
  return { ...got, text: textOf(bytes) };
};

test("a run gives what it wrote, and how it ended", { skip }, () => {
  const got = done("check", 30, RX1 + RX2);
  assert.deepEqual([got.status, got.text, got.written, got.fault],
    [0, "heard 2 passed 0\n", 17, ""]);
  assert.equal(done("convert text", 30, RX1).text, "N0CALL-7>APRS:>Hi\n");
});
test("several inputs are one book, under the gap that is asked for", { skip }, () => {
  const rows = gap => done("merge", gap, RX1, RX2).text.split("\n");
  assert.deepEqual([rows(30)[0], rows(30).at(-2), rows(1)[0], rows(1).at(-2)],
    ["APRSBOOK 3 30", "END 1", "APRSBOOK 3 1", "END 2"]);
  const { text } = done("merge", 30, RX1, RX2);
  assert.equal(done("merge", 30, text, "", RX1).text, text);
  assert.equal(done("widen", 60, text).text.split("\n")[0], "APRSBOOK 3 60");
});
/**
 * Calls `run` with one instance in place of one for each run, which takes thirty times as long.
 * The runs of the library for C share a memory too.
 */
function inOneInstance(run) {
  const { Instance } = WebAssembly, one = new Instance(module);
  WebAssembly.Instance = class { constructor() { return one; } };
  try {
    return run();
  } finally {
    WebAssembly.Instance = Instance;
  }
}
/** The texts with another byte at a place, 256 at each place, one after the other in one array. */
function* changesOf(text) {
  const bytes = bytesOf(text);
  for (const at of bytes.keys()) {
    const was = bytes[at];
    for (let byte = 0; byte < 256; byte++) {
      bytes[at] = byte;
      yield { bytes, at, byte };
    }
    bytes[at] = was;
  }
}
const merged = bytes => run(module, "merge", 30, [bytes]);
test("a text with any byte at any place is refused, or is that of its book", { skip },
  () => {
    const one = "APRSBOOK 3 30\nT 2024-05-01T12:00:00.000Z 2024-05-01T12:00:00.000Z RX1 RX1 "
      + "82a0a4a64040e09c60868298986f03f03e4869\nEND 1\n";
    const two = "APRSBOOK 3 30\nT 1970-01-01T00:00:00.000Z 1970-01-01T00:00:30.000Z RX1,RX2 RX2 "
      + "82a0a4a64040e09c60868298986eae92888a6240e303f03e4869\n"
      + "T 2099-12-31T23:59:59.000Z 2099-12-31T23:59:59.000Z RX2 RX2 "
      + "82a0a4a64040e09c60868298986f03f03e4869\nEND 2\n";
    const counts = [one, two].map(text => inOneInstance(() => {
      const found = { refused: 0, taken: 0 };
      for (const { bytes, at, byte } of changesOf(text)) {
        const { status, fault, bytes: written } = merged(bytes);
        if (status) assert.notEqual(fault, "", `${at} ${byte}`);
        else assert.deepEqual(Buffer.from(written), Buffer.from(bytes), `${at} ${byte}`);
        found[status ? "refused" : "taken"]++;
      }
      return found;
    }));
    assert.deepEqual(counts.map(it => it.refused + it.taken), [256 * one.length, 256 * two.length]);
    assert.ok(counts.every(it => it.taken > one.length));
    // at each place one of them in an instance of its own, which says the same
    for (const { bytes, at, byte } of changesOf(one))
      if (byte === 13 * at % 256)
        assert.deepEqual(merged(bytes), inOneInstance(() => merged(bytes)), `${at} ${byte}`);
  });
test("a fault names the input, the line and the cause", { skip }, () => {
  const { status, input, line: at, fault } = done("merge", 30, RX1, RX1 + "torn\n", "torn\n");
  assert.deepEqual([status, input, at, fault], [1, 1, 2, "Moment"]);
  assert.equal(done("merge", 30, "APRSBOOK 3 60\nEND 0\n").fault, "other gap");
});
test("the command says a fault by its input, line and cause, and ends with its status", { skip },
  t => {
    const folder = fs.mkdtempSync(path.join(os.tmpdir(), "aprsbook-"));
    t.after(() => fs.rmSync(folder, { recursive: true }));
    const parts = { version: "", helps: {}, module: fs.readFileSync(file).toString("base64"),
      rows: { aprsbook: [{ words: ["merge"], options: ["gap"], required: [], many: true },
        { words: ["convert", "capture"], options: CAPTURE, required: CAPTURE, many: true }] } };
    fs.writeFileSync(path.join(folder, "command.mjs"), `import fs from "node:fs";
      import { command } from ${JSON.stringify(COMMAND)};
      command(JSON.parse(fs.readFileSync("parts.json", "utf8")));`);
    fs.writeFileSync(path.join(folder, "parts.json"), JSON.stringify(parts));
    const logs = { "a.log": RX1, "torn.log": RX1 + "torn\n", "60.book": "APRSBOOK 3 60\nEND 0\n" };
    for (const [name, text] of Object.entries(logs))
      fs.writeFileSync(path.join(folder, name), text);
    const ended = (names, words = ["merge"]) => {
      const { status, stdout, stderr } = spawnSync(process.execPath,
        ["command.mjs", ...words, ...names], { cwd: folder, encoding: "utf8" });
      return [status, stdout.split("\n")[0], stderr];
    };
    assert.deepEqual(ended(["a.log"]), [0, "APRSBOOK 3 30", ""]);
    assert.deepEqual(ended(["a.log", "torn.log"]), [1, "", "aprsbook: torn.log: line 2: Moment\n"]);
    // of no line alone
    assert.deepEqual(ended(["a.log", "60.book"]), [1, "", "aprsbook: 60.book: other gap\n"]);
    // a folder can't be read on: of a log from its first line, and a capture has none
    assert.deepEqual(ended(["."]), [1, "", "aprsbook: .: line 1: Read\n"]);
    const capture = ["convert", "capture", "--receiver", "RX1", "--moment", "2024-05-01T12:00:00Z"];
    assert.deepEqual(ended(["."], capture), [1, "", "aprsbook: .: line 0: Read\n"]);
  });
test("words go to the function: of a table its name, of a capture receiver and moment", { skip },
  () => {
    const head = table => done(`table ${table}`, 30, RX1).text.split("\n")[0].split("\t")[0];
    assert.deepEqual(["rows", "messages", "stations"].map(head), ["kind", "source", "source"]);
    const frame = Uint8Array.from(FRAME.match(/../g), it => parseInt(it, 16));
    const capture = (receiver, moment) =>
      run(module, "convert capture", [receiver, moment], [frame]);
    const got = capture("RX9", "2024-05-01T12:00:00Z");
    assert.equal(textOf(got.bytes), line("12:00:00.000", "RX9"));
    assert.equal(capture("RX.9", "2024-05-01T12:00:00Z").status, 2);
  });
test("an input is let go of once, as soon as it is copied", { skip }, () => {
  const inputs = [RX1, RX2].map(bytesOf), gone = [];
  const { status, bytes } = run(module, "merge", 30, inputs, it => gone.push(it));
  assert.deepEqual([status, gone, textOf(bytes)], [0, inputs, done("merge", 30, RX1, RX2).text]);
});
