import assert from "node:assert/strict";
import fs from "node:fs";
import path from "node:path";
import { test } from "node:test";
import { fileURLToPath } from "node:url";

const TOP = fileURLToPath(new URL("../..", import.meta.url));
const SOURCES = path.join(TOP, "page/src");
/** Folders from the lowest one up: a module imports of its own and of those before it. */
const FLOORS = ["util", "geo", "net", "formats", "worker", "map/layers", "map", "lists", "ics309",
  "desks", "app", "intake", "."];
const modules = fs.readdirSync(SOURCES, { recursive: true }).map(String)
  .filter(it => it.endsWith(".js"));
const textOf = name => fs.readFileSync(path.join(SOURCES, name), "utf8");
/** What a module imports, for its types too. */
function importsOf(name) {
  const found = textOf(name).matchAll(/^import .*?"(\..*?)";$|import\("(\..*?)"\)/gms);
  return [...new Set([...found].map(it => it[1] || it[2]))]
    .map(it => path.join(path.dirname(name), it)).filter(it => it !== name);
}
const graph = new Map(modules.map(it => [it, importsOf(it)]));

test("a module imports no folder above its own", () => {
  const floorOf = name => {
    const floor = FLOORS.indexOf(path.dirname(name));
    assert.ok(floor >= 0, `${name} is in no folder that is known`);
    return floor;
  };
  const upward = [...graph].flatMap(([name, imports]) =>
    imports.filter(it => floorOf(it) > floorOf(name)).map(it => `${name} imports ${it}`));
  assert.deepEqual(upward, []);
  assert.ok(graph.get("main-reader.js").includes("main-event.js"), "imports are found");
});
test("no module imports itself by others, and each is imported or a beginning", () => {
  const left = new Map(graph);
  for (let size = -1; size !== left.size;) {
    size = left.size;
    for (const [name, imports] of left) if (!imports.some(it => left.has(it))) left.delete(name);
  }
  assert.deepEqual([...left.keys()], []);
  const imported = new Set([...graph.values()].flat());
  assert.deepEqual(modules.filter(it => !imported.has(it) && !it.startsWith("main-")), []);
});
test("each module is imported by a test of the page's parts", () => {
  const tests = fileURLToPath(new URL(".", import.meta.url));
  const queue = fs.readdirSync(tests).filter(it => it.endsWith(".js"))
    .flatMap(it => [...fs.readFileSync(path.join(tests, it), "utf8")
      .matchAll(/import[^;]*?page\/src\/([\w/-]+\.js)/g)].map(found => found[1]));
  const seen = new Set(queue);
  for (const it of queue)
    for (const one of graph.get(it)) if (!seen.has(one)) seen.add(one) && queue.push(one);
  assert.deepEqual(modules.filter(it => !seen.has(it)), []);
});
test("no line is longer than 100 columns, but for the shapes of symbols", () => {
  const tests = ["tests/page", "tests/browser"].flatMap(folder =>
    fs.readdirSync(path.join(TOP, folder)).map(it => path.join(folder, it)));
  const files = [...modules.map(it => path.join("page/src", it)), ...tests]
    .filter(it => /\.(js|py)$/.test(it));
  const long = files.flatMap(name => fs.readFileSync(path.join(TOP, name), "utf8").split("\n")
    .map((it, n) => ({ at: `${name}:${n + 1}`, it })))
    .filter(({ it }) => it.length > 100 && !/: "M/.test(it));
  assert.deepEqual(long.map(it => it.at), []);
});
