import assert from "node:assert/strict";
import { spawnSync } from "node:child_process";
import fs from "node:fs";
import os from "node:os";
import path from "node:path";
import { test } from "node:test";
import { fileURLToPath } from "node:url";

const SOURCES = fileURLToPath(new URL("../../page/src", import.meta.url));
const TOP = fileURLToPath(new URL("../..", import.meta.url));
const isThere = spawnSync("esbuild", ["--version"]).status === 0;
const skip = isThere ? false : "needs esbuild";
/** The modules that are joined to the script of an entry, and its size. */
function bundled(entry) {
  const folder = fs.mkdtempSync(path.join(os.tmpdir(), "bundle-"));
  const out = path.join(folder, "out.js"), meta = path.join(folder, "meta.json");
  const done = spawnSync("esbuild", [`${entry}.js`, "--bundle", "--minify", "--format=iife",
    "--charset=utf8", "--platform=node", "--log-level=error", `--outfile=${out}`,
    `--metafile=${meta}`], { cwd: SOURCES });
  assert.equal(done.status, 0, String(done.stderr));
  const { inputs } = JSON.parse(fs.readFileSync(meta, "utf8"));
  const text = fs.readFileSync(out, "utf8");
  fs.rmSync(folder, { recursive: true });
  return { modules: Object.keys(inputs), text };
}
/** The names of a module's values that change: those of `let`, and what is filled. */
const stateOf = name => [...fs.readFileSync(path.join(SOURCES, name), "utf8")
  .matchAll(/^(?:export )?(?:let (\w+)|const (\w+) = (?:new (?:Map|Set|WeakMap)\(\)|\[\]);)/gm)]
  .map(it => it[1] || it[2]);

test("no module stands twice with a state of its own", { skip }, () => {
  const { modules, text } = bundled("main-reader"), worker = bundled("main-worker").modules;
  assert.ok(modules.includes("util/task-queue.js") && worker.includes("net/table-reader.js"));
  assert.equal(modules.length, new Set(modules).size);
  // a page has one script, of which each module is a part once
  assert.equal(text.split("the page hasn't begun").length, 2);
  const twice = worker.filter(it => modules.includes(it));
  assert.ok(twice.length > 5);
  // a worker is a world of its own: what both have of a module has no state
  assert.deepEqual(twice.flatMap(it => stateOf(it).map(name => `${it}: ${name}`)), []);
  assert.deepEqual(stateOf("worker/pool.js"), ["hands", "asked", "queue", "last"]);
});
test("the scripts are within their budgets", { skip }, () => {
  // with coast, style and data the page of the evening stays below 300,000
  const budgets = { "main-event": 172_000, "main-reader": 215_000, "main-worker": 13_000 };
  for (const [entry, most] of Object.entries(budgets)) {
    const { length } = bundled(entry).text;
    assert.ok(length <= most, `${entry} has ${length} bytes`);
  }
});
test("the module is at hand without a proof, of the release", () => {
  const done = spawnSync("build/module.py", { cwd: TOP, encoding: "utf8" });
  if (!fs.existsSync(path.join(TOP, "release"))) return;
  assert.equal(done.status, 0, done.stderr);
  const module = fs.readFileSync(path.join(TOP, done.stdout.trim()));
  assert.deepEqual([...module.subarray(0, 4)], [0, ...Buffer.from("asm")]);
  // a release is made of what was built alone
  const page = path.join(fs.mkdtempSync(path.join(os.tmpdir(), "page-")), "page.html");
  fs.writeFileSync(page,
    '<script type="application/json" id="parts">{"module":"AGFzbQ=="}</script>');
  assert.equal(spawnSync("build/module.py", [page], { cwd: TOP }).status, 1);
});
