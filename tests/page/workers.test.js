import assert from "node:assert/strict";
import { test } from "node:test";
import v8 from "node:v8";
import vm from "node:vm";
import { bytesOf, line } from "./stand.js";
import { limits } from "../../page/src/worker/sources.js";
import { beginWorkers, run } from "../../page/src/worker/pool.js";

await beginWorkers("", null, fault => assert.fail(fault));
const log = bytesOf(line("18:00:00", "RX1"));

test("what a run gives is kept by who asked for it alone", async () => {
  v8.setFlagsFromString("--expose-gc");
  const collect = vm.runInNewContext("gc");
  const gone = new WeakRef(await run("check", 30, [log]));
  for (let k = 0; k < 20 && gone.deref(); k++) {
    await new Promise(done => setTimeout(done, 10));
    collect();
  }
  assert.equal(gone.deref(), undefined);
});
test("many bytes are copied in pieces, with pauses between them", async t => {
  const { setTimeout } = globalThis;
  t.after(() => { globalThis.setTimeout = setTimeout; });
  let pauses = 0;
  globalThis.setTimeout = (done, wait, ...of) => {
    if (wait === undefined) pauses++;
    return setTimeout(done, wait, ...of);
  };
  const pausesOf = async (...sizes) => {
    pauses = 0;
    await run("check", 30, sizes.map(it => new Uint8Array(it)));
    return pauses;
  };
  const piece = 2 ** 23;
  assert.deepEqual([await pausesOf(piece), await pausesOf(piece + 1),
    await pausesOf(piece, piece, 1)], [0, 1, 2]);
});
test("what a large run gives comes once the memory of its worker is free", async t => {
  const before = { ...limits }, { terminate } = Worker.prototype;
  let ended = 0;
  t.after(() => {
    Object.assign(limits, before);
    Worker.prototype.terminate = terminate;
  });
  Worker.prototype.terminate = () => { ended = performance.now(); };
  assert.equal((await run("check", 30, [log])).status, 0);
  assert.equal(ended, 0);
  limits.alone = 9;
  // more than there are workers: others take the places of those that ended
  for (let k = 0; k < 4; k++) {
    ended = 0;
    assert.equal((await run("check", 30, [log])).status, 0);
    assert.ok(ended > 0 && performance.now() - ended > 90, `${performance.now() - ended}`);
  }
});
