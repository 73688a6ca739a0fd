import assert from "node:assert/strict";
import { test } from "node:test";
import { OutOfMemory, run } from "../../page/src/worker/wasm-host.js";

const PAGE = 65536, MIB = 2 ** 20;
/**
 * Calls `run` with an instance by hand in place of a module's: its memory has so many bytes at
 * most, and its check takes a region of so many. Gives the regions that it was asked with.
 */
function withInstance(most, wanted, run) {
  const { Instance } = WebAssembly, regions = [];
  WebAssembly.Instance = class {
    constructor() {
      const memory = { buffer: new ArrayBuffer(PAGE), grow(pages) {
        const size = memory.buffer.byteLength + Number(pages) * PAGE;
        if (size > most) throw new RangeError("no memory");
        memory.buffer = new ArrayBuffer(size);
      } };
      const aprs_check = (answer, region) => {
        const view = new DataView(memory.buffer), put = (at, value) =>
          view.setBigUint64(Number(answer) + at, BigInt(value), true);
        regions.push(16 * Number(view.getBigUint64(Number(region) + 8, true)));
        put(0, regions.at(-1) < wanted ? 3 : 0);
      };
      this.exports = { memory, aprs_check, __heap_base: { value: 1024 } };
    }
  };
  try {
    return { got: run(), regions };
  } finally {
    WebAssembly.Instance = Instance;
  }
}
const inputs = [new Uint8Array(4 * MIB)];
const checkIn = (most, wanted) => withInstance(most, wanted, () => run(null, "check", 30, inputs));
const mibs = ({ got, regions }) => [got.status, ...regions.map(it => Math.round(it / MIB))];

test("a run that has no memory for its region is tried with a smaller one", () => {
  assert.deepEqual(mibs(checkIn(100 * MIB, 0)), [0, 36]);
  assert.deepEqual(mibs(checkIn(32 * MIB, 0)), [0, 18]);
  assert.deepEqual(mibs(checkIn(24 * MIB, 8 * MIB)), [0, 9]);
});
test("a region that was too small is doubled, and none is tried twice", () => {
  assert.deepEqual(mibs(checkIn(200 * MIB, 100 * MIB)), [0, 36, 72, 144]);
  assert.throws(() => checkIn(32 * MIB, 30 * MIB), OutOfMemory);
  assert.throws(() => checkIn(12 * MIB, 0), OutOfMemory);
});
