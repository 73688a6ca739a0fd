import assert from "node:assert/strict";
import { spawnSync } from "node:child_process";
import fs from "node:fs";
import os from "node:os";
import path from "node:path";
import { test } from "node:test";
import { emptyBooks, inputsOf, jobOf } from "../../page/src/main-node.js";

const row = (words, of = {}) => ({ words, options: [], required: [], seconds: false, many: false,
  ...of });
const gap = { options: ["gap"], many: true }, capture = ["receiver", "moment"];
const help = name => ({ short: `${name} -h\n`, long: `${name} --help\n` });
const PARTS = { version: "1.2.3", module: "",
  rows: { "aprsbook": [row(["check"]), row(["convert", "text"]),
    row(["convert", "capture"], { options: capture, required: capture }), row(["merge"], gap),
    row(["widen"], { seconds: true })],
  "aprsbook-table": [row([], gap), row(["rows"], gap), row(["messages"], gap)] },
  helps: Object.fromEntries(["aprsbook", "aprsbook check", "aprsbook convert", "aprsbook merge",
    "aprsbook widen", "aprsbook-table"].map(it => [it, help(it)])) };
const job = (words, program = "aprsbook") => jobOf(program, words, PARTS);
/** With which status and words such words end at once. */
function ended(words, program) {
  try {
    return job(words, program);
  } catch (fault) {
    return [fault.status, fault.message.split("\n")[0]];
  }
}

test("words ask for a run of the module", () => {
  assert.deepEqual(job([]), { run: "convert text", options: [], paths: [] });
  assert.deepEqual(job(["check", "a.log"]), { run: "check", options: 30, paths: ["a.log"] });
  assert.deepEqual(job(["merge", "a", "--gap=60", "b"]),
    { run: "merge", options: 60, paths: ["a", "b"] });
  assert.deepEqual(job(["widen", "+5", "-"]), { run: "widen", options: 5, paths: ["-"] });
  assert.deepEqual(job(["convert", "--moment", "x", "capture", "--receiver", "RX1"]),
    { run: "convert capture", options: ["RX1", "x"], paths: [] });
  assert.deepEqual(job(["messages", "a"], "aprsbook-table"),
    { run: "table messages", options: 30, paths: ["a"] });
  assert.deepEqual(job(["a", "rows"], "aprsbook-table"),
    { run: "table rows", options: 30, paths: ["a", "rows"] });
  assert.deepEqual(job(["check", "--", "--gap"]).paths, ["--gap"]);
});
test("wrong words end with 2, and help and the version with 0", () => {
  for (const words of [["nothing"], ["check", "a", "b"], ["check", "--gap", "5"], ["convert"],
    ["convert", "x"], ["widen"], ["widen", "0"], ["widen", "3601"], ["widen", "1e1"],
    ["merge", "--gap"], ["merge", "--gap", "--help"], ["merge", "--gap=1", "--gap=1"],
    ["merge", "--gap="], ["--gap", "5", "merge"], ["check", "--version"], ["help", "x"]])
    assert.equal(ended(words)[0], 2, words.join(" "));
  assert.deepEqual(ended(["convert", "text", "--receiver", "RX1"]),
    [2, "aprsbook: bad capture options"]);
  assert.deepEqual(ended(["convert", "capture", "--receiver", "RX1"]),
    [2, "aprsbook: bad capture options"]);
  assert.deepEqual(ended(["--version"]), [0, "aprsbook 1.2.3"]);
  assert.deepEqual(ended(["-V"], "aprsbook-table"), [0, "aprsbook-table 1.2.3"]);
  assert.deepEqual(ended(["check", "-h"]), [0, "aprsbook check -h"]);
  assert.deepEqual(ended(["help", "merge"]), [0, "aprsbook merge --help"]);
  // what is wrong comes before help that is asked for behind it
  assert.equal(ended(["widen", "x", "--help"])[0], 2);
  assert.equal(ended(["widen", "--help", "x"])[0], 0);
});

/** A folder of these files with their texts, which goes away. */
function folderOf(t, texts) {
  const folder = fs.mkdtempSync(path.join(os.tmpdir(), "aprsbook-"));
  t.after(() => fs.rmSync(folder, { recursive: true }));
  for (const [name, text] of Object.entries(texts))
    fs.writeFileSync(path.join(folder, name), text);
  return name => path.join(folder, name);
}
/** Opens a file in a way, until the test ends. */
function openFor(t, path, way) {
  const file = fs.openSync(path, way);
  t.after(() => fs.closeSync(file));
  return file;
}
test("an input isn't the file that the output goes to, by whichever name", t => {
  const at = folderOf(t, { "io.log": "a", "twin.log": "a" });
  const output = openFor(t, at("io.log"), "a");
  fs.symlinkSync(at("io.log"), at("soft.log"));
  fs.linkSync(at("io.log"), at("hard.log"));
  const open = (names, to = output) => inputsOf(names.map(at), words => new Error(words), to);
  for (const name of ["io.log", "soft.log", "hard.log"])
    assert.throws(() => open(["twin.log", name, "none.log"]),
      new Error(`${at(name)}: input is output`));
  // the first path that can't serve is named
  assert.throws(() => open(["none.log", "io.log"]), new Error(`${at("none.log")}: cannot open`));
  assert.equal(open(["twin.log", "twin.log"]).length, 2);
  // what is no regular file may be both
  const none = openFor(t, os.devNull, "r+");
  assert.equal(inputsOf([os.devNull], words => new Error(words), none).length, 1);
});
test("standard input isn't the file that the output goes to either", t => {
  const at = folderOf(t, { "io.log": "a" }), input = openFor(t, at("io.log"), "r");
  const output = openFor(t, at("io.log"), "a");
  const module = new URL("../../page/src/main-node.js", import.meta.url).href;
  const script = `import { command } from ${JSON.stringify(module)};
    process.argv = ["node", "command", "check"];
    command(${JSON.stringify(PARTS)});`;
  const done = spawnSync(process.execPath, ["--input-type=module", "-e", script],
    { stdio: [input, output, "pipe"] });
  assert.deepEqual([done.status, done.stderr.toString(), fs.readFileSync(at("io.log"), "utf8")],
    [1, "aprsbook: standard input: input is output\n", "a"]);
});
test("of several inputs it is said which is empty with the name of a book", t => {
  const at = folderOf(t, { "gone.book": "", "gone.log": "", "a.book": "x" });
  fs.symlinkSync(at("gone.book"), at("gone"));
  const said = names => emptyBooks(names.map(at), names.map(it => openFor(t, at(it), "r")))
    .map(it => path.basename(it));
  assert.deepEqual(said(["gone.book", "a.book", "gone.log", "gone", "gone.book"]),
    ["gone.book", "gone.book"]);
  // not of one input, which may be meant so
  assert.deepEqual(said(["gone.book"]), []);
});
