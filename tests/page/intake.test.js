import assert from "node:assert/strict";
import { test } from "node:test";
import { answering, bytesOf, line, saved, textOf } from "./stand.js";
import { files, movedOf, shiftNotes } from "../../page/src/intake/file-table.js";
import { fileOf, look, shifts } from "../../page/src/intake/intake.js";
import { beginEarly, textsOf } from "../../page/src/intake/runs.js";
import { limits } from "../../page/src/worker/sources.js";
import { beginWorkers, run } from "../../page/src/worker/pool.js";

await beginWorkers("", null, fault => assert.fail(fault));
const logOf = (name, text, of) => fileOf(name, "log", bytesOf(text), of);
/** A log that was given and looked at. */
async function looked(name, text) {
  const file = logOf(name, text);
  await look(file, 30);
  return file;
}
const bookOf = async files => textOf((await textsOf(files, 30, () => {})).book);
test("a log that comes after a clock was put right is moved in the book too", async t => {
  t.after(() => shifts.clear());
  shifts.set("COAST", -3600);
  const first = await looked("a.log", line("19:00:00", "COAST"));
  const second = logOf("b.log", line("19:10:00", "COAST"));
  beginEarly([first, second], 30);
  await look(second, 30);
  assert.deepEqual((await bookOf([first, second])).match(/T\d\d:\d\d/g), ["T18:00", "T18:10"]);
});
test("so is one whose clock is put right while it is read", async t => {
  t.after(() => shifts.clear());
  const file = logOf("a.log", line("19:00:00", "COAST"));
  beginEarly([file], 30);
  shifts.set("COAST", -3600);
  await look(file, 30);
  assert.match(await bookOf([file]), /T18:00/);
});
test("a log is saved as its clock is put right at the click, which notes say of logs", async t => {
  t.after(() => {
    shifts.clear();
    files.length = 0;
  });
  shifts.set("COAST", -3600);
  files.push(await looked("a.log", line("19:00:00", "COAST")));
  const [file] = files, [, button] = movedOf(file);
  file.bytes = bytesOf(line("19:00:00", "COAST") + line("19:10:00", "COAST"));
  await look(file, 30);
  button.onclick();
  const [[name, blob]] = saved;
  assert.deepEqual([name, (await blob.text()).match(/T\d\d:\d\d/g)],
    ["a.put-right.log", ["T18:00", "T18:10"]]);
  const words = ["the clock of COAST was put 60 min back here"];
  assert.deepEqual(shiftNotes(shifts), words);
  assert.equal(movedOf(file)[0].textContent, words[0]);
  files.length = 0;
  assert.deepEqual(shiftNotes(shifts), []);
});
test("what began early is the book where files are what they were", async () => {
  const asked = [], file = logOf("a.log", line("19:00:00", "RX1"));
  await answering({ answer: ({ command }) => { asked.push(command); } }, async () => {
    beginEarly([file], 30);
    await look(file, 30);
    assert.match(await bookOf([file]), /T19:00/);
  });
  assert.deepEqual(asked.sort(), ["check", "merge", "messages", "rows"]);
});
test("the messages of a large book are those of its part that tells of them", async t => {
  const { alone } = limits, said = bytesOf("said"), asked = [], good = [await looked("a.log",
    line("18:00:00", "RX1") + line("18:30:00", "RX1"))];
  t.after(() => Object.assign(limits, { alone }));
  limits.alone = 9;
  const messages = async ofSaid => {
    asked.length = 0;
    await answering({ answer: ({ command, inputs }) => {
      asked.push([command, inputs[0].length]);
      if (command === "rows")
        return { status: 0, bytes: bytesOf("rows"), inputs, said: Uint8Array.from(said) };
      return command === "messages" && inputs[0].length === said.length ? ofSaid : null;
    } }, async () => {
      const made = await textsOf(good, 30, () => {});
      assert.match(textOf(made.book), /END 2\n$/);
      // the rows are those of the whole book, be it merged anew or there
      assert.equal(asked.find(([it]) => it === "rows")[1], made.book.length);
      asked.push(textOf(made.messages));
    });
    return asked.filter(([it]) => it !== "rows" && it !== "merge");
  };
  const { book, messages: all } = await textsOf(good, 30, () => {});
  assert.deepEqual(await messages({ status: 0, bytes: bytesOf("some") }),
    [["messages", said.length], "some"]);
  // a run of them that is refused, or a worker that stops, is no reason to show none
  assert.deepEqual(await messages({ status: 4, fault: "", bytes: bytesOf("") }),
    [["messages", said.length], ["messages", book.length], textOf(all)]);
});

test("a large file with CR LF behind its beginning is spelled, and its damage found", async () => {
  const begin = line("18:00:00", "RX1"), windows = line("18:01:00", "RX1").replace("\n", "\r\n");
  const file = fileOf("a.log", "log", new Blob([begin, windows]));
  await look(file, 30);
  assert.deepEqual([file.fault, file.said, file.spelling, textOf(file.taken)],
    ["", "heard 2 passed 0", ["CR LF"], begin + windows.replace("\r", "")]);
  const torn = fileOf("b.log", "log", new Blob([begin, windows, "torn\r\n", windows]));
  await look(torn, 30);
  assert.deepEqual(torn.damage.map(it => [it.line, it.why]), [[3, "Moment"]]);
});

test("of two looks at a file the one that was asked last stays", async () => {
  const file = fileOf("tape.kiss", "KISS stream", new Uint8Array(9)), waits = [60, 1];
  const answer = ({ command, options }) => command === "convert capture" && { status: 0,
    bytes: bytesOf(line(options[1].slice(11, 19), "RX1")) };
  const wait = command => command === "convert capture" ? waits.shift() : 0;
  await answering({ answer, wait }, async () => {
    file.moment = "2024-06-21T18:00:00Z";
    const first = look(file, 30);
    file.moment = "2024-06-21T19:00:00Z";
    await Promise.all([first, look(file, 30)]);
    assert.equal(textOf(file.taken), line("19:00:00", "RX1"));
  });
});
test("of a book, and of what can't be read, no line is said to be passed over", async () => {
  const book = fileOf("a.book", "book", bytesOf("APRSBOOK stand-in\nEND 0\n"));
  const none = fileOf("x.pdf", "a PDF", bytesOf("%PDF"), { unread: "is a PDF, which no log is" });
  for (const it of [book, none]) {
    await look(it, 30);
    assert.deepEqual([it.over, it.passed], [0, []]);
  }
  assert.equal(none.fault, "is a PDF, which no log is");
});
test("of very many lines that are passed over the first are kept, and a count", async () => {
  const says = Array.from({ length: 300 }, (_, k) => `line ${k}: no AX.25\n`).join("");
  const check = async (status, bytes) => {
    const file = logOf("a.log", line("18:00:00", "RX1"));
    await answering({ answer: () => ({ status, fault: "", bytes: bytesOf(bytes) }) },
      () => look(file, 30));
    return [file.said, file.over, file.passed.length, file.passed.at(-1)];
  };
  assert.deepEqual(await check(0, says + "heard 1 passed 300\n"),
    ["heard 1 passed 300", 300, 50, "line 49: no AX.25"]);
  assert.deepEqual(await check(1, says), ["", 300, 50, "line 49: no AX.25"]);
  assert.deepEqual(await check(0, "heard 1 passed 0\n"), ["heard 1 passed 0", 0, 0, undefined]);
  assert.deepEqual(await check(1, ""), ["", 0, 0, undefined]);
});

test("a worker is free again where there is no room for a copy of what it is to read", async () => {
  const noRoom = Object.defineProperty(new Uint8Array(9), "length", { value: -1 });
  for (let k = 0; k < 4; k++) await assert.rejects(run("check", 30, [noRoom]), RangeError);
  assert.equal((await run("check", 30, [bytesOf(line("18:00:00", "RX1"))])).status, 0);
});
