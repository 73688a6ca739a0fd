import assert from "node:assert/strict";
import { test } from "node:test";
import "./document.js";
import { pick } from "../../page/src/app/selection.js";
import { page } from "../../page/src/app/state.js";
import { netOfLines, place } from "./tables.js";

test("what is told of a mark that is clicked on comes into view beside the map", () => {
  const net = netOfLines([place(0, "Q1A", 54, -3), place(1, "Q1B", 54, -3)]), list = { show() {} };
  page.shown = { net, all: { rows: net.things[0].rows, messages: [], end: 1 },
    data: { silent: 30, live: 0 } };
  page.widgets = { map: { reach() {}, paintSoon() {} }, layers: { stations: {} },
    lists: { places: list, frames: list, things: { mark() {} } } };
  const [box, one] = ["beside", "one"].map(id => document.getElementById(id));
  box.getBoundingClientRect = () => ({ top: 155 });
  one.getBoundingClientRect = () => ({ top: 855 - box.scrollTop });
  document.getElementById("map").scrollIntoView = () => {};
  globalThis.getComputedStyle = () => ({ overflowY: "auto" });
  pick("station Q1A", true);
  assert.deepEqual([one.hidden, box.scrollTop], [false, 700]);
  // the same again ends it, and one that is picked in the list leaves the list where it is
  pick("station Q1A", true);
  assert.deepEqual([one.hidden, box.scrollTop], [true, 700]);
  box.scrollTop = 900;
  pick("station Q1B");
  assert.deepEqual([one.hidden, box.scrollTop], [false, 900]);
});
