// The page of an event that loads itself again, by a stand-in for its server.

import assert from "node:assert/strict";
import { test } from "node:test";
import { byId, enter, open, skip, until } from "./window.js";
import { messageTable, place, table } from "./tables.js";

const of = count => ({ title: "Fell race", gap: 30, silent: 30, live: 1, maps: [], roster: "",
  notes: [], messages: messageTable([]), rows: table(Array.from({ length: count }, (_, k) =>
    place(60 * k, `Q1A-${k + 1}`, 54.5, -3.5))) });
/** How often it was asked for, and of how many transmissions the page is that is answered. */
let asked = 0, count = 1;
globalThis.fetch = async () => {
  asked++;
  const text = JSON.stringify(of(count)).replaceAll("<", "\\u003c");
  return new Response(`<meta http-equiv="Content-Security-Policy" content="${policy}">` +
    `<script type="application/json" id="data">${text}</script>`,
    { headers: { date: new Date().toUTCString() } });
};
if (!skip) open(of(1));
const policy = skip ? "" : document.querySelector("meta[http-equiv]").getAttribute("content");
if (!skip) await import("../../page/src/main-event.js");
const { aprsbook } = globalThis;
if (!skip) await until(() => aprsbook.all && !byId("live-label").hidden);

test("a page that goes on says how often it is asked for, and shows what is new", { skip },
  async () => {
    const label = byId("live-label");
    assert.deepEqual([label.hidden, label.textContent.trim(), byId("live").checked],
      [false, "load again each 1 s", true]);
    count = 2;
    await until(() => aprsbook.all.rows.length === 2);
    assert.equal(aprsbook.all.rows.length, 2);
    assert.match(byId("about").textContent, /2 transmissions of 2 stations/);
    assert.deepEqual([aprsbook.alive.away, aprsbook.alive.refused], [0, ""]);
  });
test("while somebody is at work nothing is asked for, nor where the reader wants none", { skip },
  async () => {
    const idle = async () => {
      await new Promise(done => setTimeout(done, 50));
      const before = asked;
      await new Promise(done => setTimeout(done, 2300));
      return asked === before;
    };
    for (const kind of ["keydown", "pointerdown", "wheel", "input"]) {
      aprsbook.alive.touched = 0;
      dispatchEvent(new Event(kind));
      assert.ok(Date.now() - aprsbook.alive.touched < 10000, kind);
    }
    assert.ok(await idle());
    aprsbook.alive.touched = 0;
    enter("live", false);
    assert.equal(new URLSearchParams(location.hash.slice(1)).get("live"), "off");
    aprsbook.alive.touched = 0;
    assert.ok(await idle());
    enter("live", true);
    aprsbook.alive.touched = 0;
    const before = asked;
    await until(() => asked > before);
    assert.ok(asked > before);
    assert.equal(new URLSearchParams(location.hash.slice(1)).get("live"), null);
  });
