import assert from "node:assert/strict";
import { setImmediate as pause } from "node:timers/promises";
import { test } from "node:test";
import v8 from "node:v8";
import vm from "node:vm";
import { madeHays } from "../../page/src/app/search.js";
import { atOnce } from "../../page/src/util/tasks.js";
import { netOfLines, place } from "./tables.js";

v8.setFlagsFromString("--expose-gc");
const collect = vm.runInNewContext("gc");

test("what one looks in keeps no net that isn't shown any more", async () => {
  let net = netOfLines([place(0, "Q1A", 54, -3)]);
  const thing = new WeakRef(net.things[0]), rows = new WeakRef(net.things[0].rows);
  atOnce(madeHays(net.things));
  net = null;
  for (let k = 0; k < 9 && (thing.deref() || rows.deref()); k++) {
    await pause();
    collect();
  }
  assert.deepEqual([thing.deref(), rows.deref()], [undefined, undefined]);
});
