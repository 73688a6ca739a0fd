import assert from "node:assert/strict";
import { test } from "node:test";
import { later, runAllWaiting } from "../../page/src/util/task-queue.js";

test("what is to be drawn anew before it was drawn is drawn once, as it was asked for last", () => {
  const drawn = [];
  function* drawing(what) {
    yield;
    drawn.push(what);
  }
  later("stations", drawing("old stations"));
  later("messages", drawing("messages"));
  later("stations", drawing("stations"));
  runAllWaiting();
  assert.deepEqual(drawn, ["messages", "stations"]);
});
