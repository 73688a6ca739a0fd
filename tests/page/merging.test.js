import assert from "node:assert/strict";
import { test } from "node:test";
import { answering, bytesOf, line, textOf } from "./stand.js";
import { fileOf, look } from "../../page/src/intake/intake.js";
import { merged, partsOf } from "../../page/src/intake/merging.js";
import { Refused, textsOf } from "../../page/src/intake/runs.js";
import { limits } from "../../page/src/worker/sources.js";
import { beginWorkers } from "../../page/src/worker/pool.js";

await beginWorkers("", null, fault => assert.fail(fault));
/** Calls `run` where so many bytes are merged at once. */
async function together(many, run) {
  const before = { ...limits };
  limits.together = many;
  await run().finally(() => Object.assign(limits, before));
}
const sized = sizes => partsOf(sizes.map(it => new Uint8Array(it)));
const logs = ["RX1", "RX2", "RX3", "RX4"].map((name, k) =>
  line(`18:0${k}:00`, name) + line("18:30:00", "RX1"));
const SIZE = logs[0].length;
/** What a merge of these gives, and by which shares it was told how far it is. */
async function mergeOf(texts, many = 2 * SIZE) {
  const shares = [], inputs = texts.map(it => typeof it === "string" ? bytesOf(it) : it);
  let got;
  await together(many, async () => {
    got = await merged(inputs, 30, [], share => shares.push(share));
  });
  return { ...got, shares };
}

test("inputs are parts of nearly the same size, the first of two or more", async () => {
  await together(100, async () => {
    assert.deepEqual([[], [1], [50, 50], [60, 50], [50, 50, 50], [200, 1], [200, 1, 1]].map(sized),
      [[0], [1], [2], [2], [2, 1], [2], [2, 1]]);
    assert.deepEqual(sized(Array(10).fill(30)), [4, 4, 2]);
    assert.deepEqual(sized(Array(100).fill(1)), [100]);
  });
});
test("the book of parts is that of all inputs", async () => {
  const whole = await mergeOf(logs, Infinity), parts = await mergeOf(logs);
  assert.deepEqual([whole.status, parts.status], [0, 0]);
  assert.equal(textOf(parts.bytes), textOf(whole.bytes));
  assert.deepEqual([whole.shares, parts.shares], [[], [1 / 2]]);
  assert.deepEqual((await mergeOf(logs, SIZE)).shares, [1 / 3, 2 / 3]);
});
test("an input that is refused is named, in whatever part it is", async () => {
  const torn = line("18:00:00", "RX1") + "torn\n";
  for (const [k, many] of [[0, 2], [1, 2], [2, 2], [3, 2], [2, 1], [3, 1]]) {
    const got = await mergeOf(logs.with(k, torn), many * SIZE);
    assert.deepEqual([got.status, got.input, got.line, got.fault], [1, k, 2, "Moment"]);
  }
});
test("where the book of the inputs before is refused no input is named", async () => {
  let runs = 0;
  const answer = () => ++runs === 2 && { status: 4, input: 0, line: 0, fault: "", bytes: [] };
  await answering({ answer }, async () => {
    const { status, input } = await mergeOf(logs);
    assert.deepEqual([status, input, runs], [4, -1, 2]);
  });
});
test("a worker that stops in a later part ends the merge", async () => {
  let runs = 0;
  await answering({ answer: () => ++runs === 2 && { stops: "no more" } }, () =>
    assert.rejects(mergeOf(logs), /a worker stopped: no more/));
  assert.equal((await mergeOf(logs)).status, 0);
});

test("large files are lent part by part, and those that are gone meanwhile are named", async () => {
  const files = [];
  for (const [k, it] of logs.entries()) {
    files.push(fileOf(`${k}.log`, "log", new Blob([it])));
    await look(files[k], 30);
  }
  const asked = [], shares = [], gone = new Blob(["x"]);
  const answer = ({ command, inputs }) => {
    if (inputs.includes(gone)) return { status: 1, input: inputs.indexOf(gone), fault: "is gone" };
    if (command === "merge") asked.push(inputs.map(it => it.length));
    return null;
  };
  await together(2 * SIZE, () => answering({ answer }, async () => {
    const { book } = await textsOf(files, 30, share => shares.push(share));
    assert.deepEqual(asked, [[SIZE, SIZE], [asked[1][0], SIZE, SIZE]]);
    assert.match(textOf(book), /END 5\n$/);
    assert.deepEqual(shares.map(it => Math.round(100 * it)), [45, 60]);
    // what was read is with the workers now, and is read once more
    assert.ok(files.every(it => it.ready === undefined));
    files[3].taken = gone;
    await assert.rejects(textsOf(files, 30, () => {}), fault => fault instanceof Refused &&
      fault.input === 3 && fault.message === "is gone");
  }));
});
