import assert from "node:assert/strict";
import { test } from "node:test";
import "./document.js";
import { holdClock, turnClock } from "../../page/src/app/playback.js";
import { page } from "../../page/src/app/state.js";
import { chosen } from "../../page/src/util/dom.js";
import { moment, netOfLines, place } from "./tables.js";

const clock = document.getElementById("clock"), then = document.getElementById("then");
const net = (...seconds) => netOfLines(seconds.map(it => place(it, "Q1A", 54, -3)));
const at = second => Date.parse(moment(second)) / 1000;

test("the map stays at its moment while the net goes on, and says that it isn't the last", () => {
  const map = { paintSoon() {} }, stations = { until: Infinity };
  Object.assign(page, { widgets: { map, layers: { stations } }, shown: { net: net(0, 100) } });
  Object.assign(clock, { value: "1000", max: "1000" });
  holdClock();
  assert.deepEqual([stations.until, then.textContent, then.className],
    [Infinity, "18:01:40", ""]);
  clock.value = "500";
  turnClock();
  assert.equal(chosen.get("clock"), String(at(50)));
  page.shown.net = net(0, 100, 1000);
  holdClock();
  assert.deepEqual([stations.until, clock.value], [at(50), "50"]);
  assert.deepEqual([then.textContent, then.className], ["until 18:00:50", "warn"]);
  assert.equal(clock.getAttribute("aria-valuetext"), "until 18:00:50");
  // a part of the time that begins later shows all of it
  page.shown.net = net(500, 1000);
  holdClock();
  assert.deepEqual([stations.until, clock.value, then.textContent],
    [Infinity, "1000", "18:16:40"]);
});
