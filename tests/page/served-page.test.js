// The page that `aprs-net serve` hands out, by stand-ins for the server's answers and its stream.

import assert from "node:assert/strict";
import { test } from "node:test";
import { line } from "./stand.js";
import { byId, enter, open, skip, textsOf, until } from "./window.js";

const NET = { title: "Fell race", silent: 20, roster: "Q1A Runner\nQ1B Sweep\n", courses: [],
  tiles: [], days: ["2024-06-21"], sites: {} };
const PARTS = { worker: "", module: "AGFzbQEAAAA=", event: "", example: "" };
const HILL = "2024-06-21/HILL.log", BASE = "desks/BASE.jsonl";
/** What was asked for, and what the server answers, by paths. */
const asked = [], answers = {
  "/who": () => new Response(JSON.stringify({ name: "BASE", net: NET }),
    { headers: { "content-type": "application/json" } }),
  "/logs.txt": () => new Response("", { status: 503 }),
  "/desks/BASE": () => new Response(JSON.stringify({ refused: [], more: 0 })),
};
globalThis.fetch = async url => {
  const { pathname } = new URL(url, "http://localhost/");
  asked.push(pathname);
  return answers[pathname]?.() ?? new Response("", { status: 404 });
};
/** The streams that were opened. */
const streams = [];
globalThis.EventSource = class {
  constructor(url) {
    Object.assign(this, { url, on: {} });
    streams.push(this);
  }
  addEventListener(kind, run) { this.on[kind] = run; }
  close() {}
};
const tell = (kind, data) => streams.at(-1).on[kind]({ data });
/** Tells lines of a file that begin at a place of it. */
const tellLines = (name, begin, text) =>
  tell("lines", `${name} ${begin} ${begin + text.length}\n${text.slice(0, -1)}`);

if (!skip) {
  const window = open(null, { reads: true, hash: "#logs=logs.txt" });
  const parts = window.document.createElement("script");
  Object.assign(parts,
    { type: "application/json", id: "parts", textContent: JSON.stringify(PARTS) });
  window.document.body.append(parts);
  await import("../../page/src/main-reader.js");
  await until(() => streams.length);
}
const { aprsbook, aprsfiles } = globalThis;

test("what the list of logs was refused for isn't said any more once a stream tells", { skip },
  () => {
    assert.match(aprsbook.alive.refused, /^logs.txt: the server answers 503, since/);
    tell("beat", "");
    assert.deepEqual([aprsbook.alive.refused, byId("connection").textContent],
      ["", "connected as desk BASE"]);
  });
test("lines are shown as a stream tells them, and nothing is asked for", { skip }, async () => {
  const { length } = asked, lines = [line("18:00:00", "HILL"), line("18:30:00", "HILL")];
  tellLines(HILL, 0, lines[0]);
  await until(() => aprsbook.all?.rows.length === 1);
  tellLines(HILL, lines[0].length, lines[1]);
  await until(() => aprsbook.all.rows.length === 2);
  assert.deepEqual(aprsfiles.files.map(it => [it.name, it.said]),
    [["logs/2024-06-21/HILL.log", "heard 2 passed 0"]]);
  // also where the list is chosen again
  enter("follow", "logs.txt");
  assert.equal(asked.length, length);
  assert.deepEqual([byId("title").textContent, byId("silent").value], ["Fell race", "20"]);
  // ages count to now, and what a desk may set shows what is set
  assert.equal(aprsbook.page.follows, true);
  const [title, silent] = document.querySelectorAll("#desk input");
  assert.deepEqual([title.placeholder, silent.placeholder,
    document.querySelector("#desk textarea").value, textsOf("#desk select option")],
  ["Fell race", "20", NET.roster, ["none"]]);
});
test("lines that don't go on with what is there have the log asked for", { skip }, async () => {
  const log = line("18:00:00", "HILL") + line("18:30:00", "HILL") + line("18:40:00", "HILL");
  answers[`/logs/${HILL}`] = () => new Response(log,
    { headers: { "content-length": String(log.length) } });
  asked.length = 0;
  tellLines(HILL, log.length, line("18:50:00", "HILL"));
  await until(() => aprsbook.all.rows.length === 3);
  assert.deepEqual([...new Set(asked)], [`/logs/${HILL}`]);
});
test("a station has the name that a desk gave it, before and after a roster comes", { skip },
  async () => {
    const entry = (n, kind, says) => JSON.stringify({ at: n, desk: "GATE", id: `${n}`.repeat(32),
      kind, ...says }) + "\n";
    const shown = () => ["Q1A", "Q1B"].map(it => aprsbook.page.settings.names.shown(it));
    await until(() => shown()[1] === "Sweep (Q1B)");
    assert.deepEqual(shown(), ["Runner (Q1A)", "Sweep (Q1B)"]);
    const name = entry(1, "name", { call: "Q1A", name: "Leader" });
    tellLines(BASE, 0, name);
    await until(() => shown()[0] === "Leader (Q1A)");
    assert.deepEqual(shown(), ["Leader (Q1A)", "Sweep (Q1B)"]);
    // and where another roster comes later
    const roster = entry(2, "setting", { name: "roster", value: "Q1A Last\nQ1B Second\n" });
    tellLines(BASE, name.length, roster);
    await until(() => shown()[1] === "Second (Q1B)");
    assert.deepEqual(shown(), ["Leader (Q1A)", "Second (Q1B)"]);
    assert.ok(textsOf("#roster-box td, #roster-box th").includes("Second"));
  });
test("a stream that ends is said, and says then how far each file was read", { skip }, async () => {
  streams.at(-1).onerror();
  assert.match(byId("connection").textContent, /^not connected as desk BASE/);
  assert.ok(aprsbook.alive.away > 0);
  const { length } = streams;
  await until(() => streams.length > length);
  const have = new URLSearchParams(streams.at(-1).url.slice("events?".length)).getAll("have");
  const size = name => Number(have.find(it => it.startsWith(`${name}:`))?.slice(name.length + 1));
  assert.equal(size(HILL), aprsfiles.files[0].bytes.length);
  assert.ok(size(BASE) > 0);
});
