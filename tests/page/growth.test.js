import assert from "node:assert/strict";
import { test } from "node:test";
import { answering, bytesOf, line, textOf } from "./stand.js";
import { goesOn, newIn } from "../../page/src/intake/growth.js";
import { fileOf, isGrown, leaveOut, look, shifts, takePlace }
  from "../../page/src/intake/intake.js";
import { merged } from "../../page/src/intake/merging.js";
import { beginEarly, textsOf } from "../../page/src/intake/runs.js";
import { beginWorkers } from "../../page/src/worker/pool.js";
import { limits } from "../../page/src/worker/sources.js";

await beginWorkers("", null, fault => assert.fail(fault));
const [A, B, C] = ["18:00:00", "18:05:00", "18:10:00"].map(it => line(it, "HILL"));
const COAST = line("18:20:00", "COAST");
const logOf = (name, text) => fileOf(name, "log", bytesOf(text));
/** Has files looked at, and gives the book of them, and what was merged for it. */
async function bookOf(files, gap = 30, isEarly = false) {
  const asked = [];
  const answer = ({ command, inputs }) => {
    if (command === "merge") asked.push(inputs.map(it => textOf(it)));
    return null;
  };
  let book = "";
  await answering({ answer }, async () => {
    if (isEarly) beginEarly(files, gap);
    for (const it of files) await look(it, gap);
    book = textOf((await textsOf(files, gap, () => {})).book);
  });
  return { book, asked };
}
const wholeOf = async files => textOf((await merged(files.map(it => it.bytes), 30, [],
  () => {})).bytes);

test("bytes go on with those before, or are others", () => {
  const [one, two, other] = ["ab", "abc", "xbc"].map(bytesOf);
  assert.deepEqual([goesOn(one, two), goesOn(two, one), goesOn(one, other), goesOn(one, other, 1),
    goesOn(one, one)], [true, false, false, true, true]);
});
test("what is new is the rest of what has grown, and what came", () => {
  const log = bytesOf(A), grown = bytesOf(A + B), blob = new Blob(["x"]), torn = bytesOf("torn");
  const new_ = (before, now) => newIn(new Map(before), new Map(now))?.map(it =>
    it instanceof Blob ? it : textOf(it)) ?? null;
  assert.deepEqual(new_([["a", log]], [["a", grown], ["b", log]]), [B, A]);
  assert.deepEqual(new_([["a", log], ["b", blob]], [["a", log], ["b", blob]]), []);
  // one that is gone, is another, isn't at hand, or ended within a line
  for (const now of [[], [["a", bytesOf(B)]], [["a", new Blob([A + B])]]])
    assert.equal(new_([["a", log]], now), null);
  assert.equal(new_([["a", torn]], [["a", bytesOf("torn no more\n")]]), null);
});
test("nothing begins early over large files, nor where clocks are put right", async t => {
  const { alone } = limits, log = logOf("a.log", A), asked = [];
  t.after(() => {
    Object.assign(limits, { alone });
    shifts.clear();
  });
  const answer = ({ command }) => void asked.push(command) ?? null;
  const early = (many = 0) => answering({ answer }, async () => {
    asked.length = 0;
    beginEarly([log], 30);
    for (let k = 0; k === 0 || k < 400 && asked.length < many; k++)
      await new Promise(done => setTimeout(done, 50));
  });
  await early(3);
  assert.deepEqual(asked, ["rows", "merge", "messages"]);
  shifts.set("HILL", 60);
  await early();
  assert.deepEqual(asked, []);
  shifts.clear();
  limits.alone = 9;
  await early();
  assert.deepEqual(asked, []);
});
test("new lines are merged into the book that is there, early or not", async () => {
  for (const isEarly of [false, true]) {
    const [hill, coast] = [logOf("a.log", A), logOf("b.log", COAST)];
    const first = await bookOf([hill], 30, isEarly);
    assert.deepEqual(first.asked, [[A]]);
    Object.assign(hill, { bytes: bytesOf(A + B), taken: null });
    const next = await bookOf([hill, coast], 30, isEarly);
    assert.deepEqual(next.asked, [[first.book, B, COAST]]);
    assert.equal(next.book, await wholeOf([hill, coast]));
    // nothing new needs no merge, and another gap one of all
    assert.deepEqual((await bookOf([hill, coast])).asked, []);
    assert.deepEqual((await bookOf([hill, coast], 60)).asked, [[A + B, COAST]]);
    // what is taken away is in no book any more
    const less = await bookOf([hill], 60);
    assert.deepEqual([less.asked, less.book], [[[A + B]], await wholeOf([hill])]);
  }
});
test("where the merge of what is new is refused, all are merged", async () => {
  const hill = logOf("a.log", A);
  await bookOf([hill]);
  hill.bytes = bytesOf(A + B);
  await look(hill, 30);
  let merges = 0;
  const answer = ({ command }) => command === "merge" && ++merges === 1 &&
    { status: 4, input: 0, line: 0, fault: "", bytes: new Uint8Array() };
  await answering({ answer }, async () => {
    assert.equal(textOf((await textsOf([hill], 30, () => {})).book), await wholeOf([hill]));
  });
});
test("a log that has grown takes the place of the older one", async () => {
  const older = logOf("a.log", A), grown = logOf("a.log", A + B);
  assert.equal(await isGrown(older, grown), true);
  assert.deepEqual(await Promise.all([[grown, older], [older, logOf("b.log", A + B)],
    [older, logOf("a.log", B + C)], [older, fileOf("a.log", "book", bytesOf(A + B))],
    [Object.assign(logOf("a.log", A), { whole: bytesOf(A) }), grown]].map(it => isGrown(...it))),
  [false, false, false, false, false]);
  // also where lines of it were left out, or it was torn
  const damaged = logOf("a.log", A + "no line\n" + B.slice(0, 9));
  await look(damaged, 30);
  leaveOut(damaged);
  await look(damaged, 30);
  assert.deepEqual([damaged.fault, textOf(damaged.bytes)], ["", A]);
  const later = logOf("a.log", A + "no line\n" + B);
  assert.equal(await isGrown(damaged, later), true);
  takePlace(damaged, later);
  assert.deepEqual([textOf(damaged.bytes), damaged.taken], [A + "no line\n" + B, null]);
});
test("a large log that can't be read any more has changed", async () => {
  const gone = new Blob([A]), older = fileOf("a.log", "log", gone);
  assert.equal(await isGrown(older, fileOf("a.log", "log", new Blob([B + C]))), false);
  gone.slice = () => ({ arrayBuffer: () => Promise.reject(new Error("NotReadableError")) });
  assert.equal(await isGrown(older, fileOf("a.log", "log", new Blob([B + C]))), true);
});
