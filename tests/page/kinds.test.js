import assert from "node:assert/strict";
import { test } from "node:test";
import { runInThisContext } from "node:vm";
import {
  damagedLines, kindOf, linesLost, READ, spelled, without, writtenIn,
} from "../../page/src/formats/file-kinds.js";
import { movedIn, receiversIn, shifting } from "../../page/src/intake/clock-shift.js";
import { atOnce } from "../../page/src/util/tasks.js";

const bytesOf = text => Uint8Array.from(text, it => it.charCodeAt(0));
const textOf = bytes => new TextDecoder("latin1").decode(bytes);
const LINE = "2024-06-21T18:00:00Z RX1 c000aac0\n";

test("what is nothing of a net is named as what it is", () => {
  const kinds = { "\x89PNG\r\n\x1a\n": "a picture", "\xff\xd8\xff\xe0": "a picture",
    "%PDF-1.7": "a PDF", "PK\x03\x04": "an archive (ZIP)", "<!DOCTYPE html>": "a web page",
    "<svg xmlns=''>": "a picture", "SQLite format 3\0": "a database (SQLite)" };
  for (const [begin, kind] of Object.entries(kinds)) {
    assert.equal(kindOf(bytesOf(begin), "x.log"), kind);
    assert.equal(READ.includes(kind), false);
  }
});
test("books, captures, maps, rosters and logs are known", () => {
  const cases = [["APRSBOOK 3", "x", "book"], ["", "net.book", "book"],
    ["\xc0\0", "x", "KISS stream"],
    ["<?xml version='1.0'?><kml>", "x.kml", "map"], ["<gpx >", "x", "map"], ["{", "x", "map"],
    ["\xef\xbb\xbfcall,name\n", "x.csv", "roster"], ["# a\nQ1A-* x\n", "x.txt", "roster"],
    [LINE, "x.txt", "log"], ["0Z RX1 c000\n" + LINE, "x.txt", "log"], ["", "x.log", "log"],
    ["Q1A x", "x.log", "log"]];
  for (const [text, name, kind] of cases) assert.equal(kindOf(bytesOf(text), name), kind, text);
});
test("checkpoints are known, whatever the first one is called", () => {
  const start = "Start 54.5 -3.5 200\n", kinds = { [start]: "checkpoints",
    ["# of the race\n\n" + start]: "checkpoints", "CP1 54.5 -3.5 200\n": "checkpoints",
    "name,north,east,metres\nHigh Point,54.5,-3.5,200\n": "checkpoints",
    "Top;54,5;-3,5;200\n": "checkpoints", "Start 95 -3.5 200\n": "log", "Start 54.5 -3.5\n": "log",
    [LINE + start]: "log" };
  for (const [text, kind] of Object.entries(kinds))
    for (const mark of ["", "\xef\xbb\xbf"])
      assert.equal(kindOf(bytesOf(mark + text), "x.txt"), kind, text);
  // a log has its own name
  assert.equal(kindOf(bytesOf(start), "x.log"), "log");
});
test("a note isn't a list of calls, whose words would be expected on the air", () => {
  const kinds = { "hello world, this is a note\n": "log", "To do:\n": "log", "I am late\n": "log",
    "2024 was good\n": "log", "Q1RUN-7 Runner\n": "roster", "q1run runner\n": "roster",
    "SWEEP the last car\n": "roster", "sweep,the last car\n": "roster", "Q1A-*": "roster",
    "who;call\n": "roster", "Call\tName\n": "roster", "\"Q1A\" x\n": "roster" };
  for (const [text, kind] of Object.entries(kinds))
    assert.equal(kindOf(bytesOf(text), "x.txt"), kind, text);
});
test("what a file is takes no time that grows with blank lines or comments", () => {
  const cases = [["\n", "!", "x.txt", "log"], ["\n", "Q1A x", "x.txt", "roster"],
    ["# a\n\n", "!", "x.csv", "log"], ["<!---->", "<svg>", "x", "a picture"],
    ["<!---->", "!", "x", "log"], ["<?xml ?>", "<!-- -->", "x", "XML"]];
  for (const [part, end, name, kind] of cases) {
    globalThis.asked = () => kindOf(bytesOf(part.repeat(200) + end), name);
    assert.equal(runInThisContext("asked()", { timeout: 3000 }), kind, part + end);
  }
});
test("Windows' spellings are read and named", () => {
  const windows = LINE.replace("\n", "\r\n").repeat(2), plain = LINE.repeat(2);
  const utf16 = order => bytesOf((order ? "\xfe\xff" : "\xff\xfe") +
    [...windows].map(it => order ? "\0" + it : it + "\0").join(""));
  assert.deepEqual(spelled(bytesOf(plain)), { bytes: bytesOf(plain), spelling: [] });
  for (const [bytes, spelling] of [[bytesOf(windows), ["CR LF"]],
    [bytesOf("\xef\xbb\xbf" + windows), ["a byte order mark", "CR LF"]],
    [utf16(false), ["UTF-16", "CR LF"]], [utf16(true), ["UTF-16", "CR LF"]]]) {
    const got = spelled(bytes);
    assert.equal(textOf(got.bytes), plain);
    assert.deepEqual(got.spelling, spelling);
  }
  // a CR that ends no line stays
  assert.equal(textOf(spelled(bytesOf("a\rb\r\n")).bytes), "a\rb\n");
});
test("what people wrote is read as it is spelled, and what isn't UTF-8 is said", () => {
  const cases = [["J\xc3\xb6rg", "J\u00f6rg", ""], ["\xff\xfeJ\0\xf6\0", "J\u00f6", ""],
    ["J\xf6rg\r\n", "J\u00f6rg\n", "read as Windows-1252, since it isn\u2019t in UTF-8"]];
  for (const [bytes, text, spelling] of cases)
    assert.deepEqual(writtenIn(bytesOf(bytes)), { text, spelling });
});
test("line ends are spelled wherever they are", () => {
  for (const [text, plain] of [["a\nb\r\nc\n", "a\nb\nc\n"], ["\r\n\r\n", "\n\n"],
    ["a\r\nb\r", "a\nb\r"], ["\r\r\n", "\r\n"]]) {
    const got = spelled(bytesOf(text));
    assert.deepEqual([textOf(got.bytes), got.spelling], [plain, ["CR LF"]]);
  }
  for (const text of ["", "a\r", "a\n"]) assert.deepEqual(spelled(bytesOf(text)).spelling, []);
});
/** Refuses each line with an x, as a check does: the first alone. */
async function check(bytes) {
  const at = textOf(bytes).split("\n").findIndex(it => it.includes("x"));
  return at < 0 ? null : { line: at + 1, why: "Hex" };
}
test("all lines that are refused are found, and the rest is left", async () => {
  const bytes = bytesOf("a\nx1\nb\nx2\nx3\nc\n");
  const damage = await damagedLines(bytes, check);
  assert.deepEqual(damage.map(it => it.line), [2, 4, 5]);
  assert.equal(textOf(without(bytes, damage)), "a\nb\nc\n");
  assert.equal(textOf(without(bytes, [])), "a\nx1\nb\nx2\nx3\nc\n");
  // more than a hundred aren't looked for
  const many = n => damagedLines(bytesOf("x\n".repeat(n)), check);
  assert.deepEqual([(await many(100)).length, await many(101)], [100, null]);
  assert.equal(await damagedLines(bytes, async () => ({ line: 1, why: "Memory" })), null);
});
test("many damaged lines of a large log are found, and little of it is checked again", async () => {
  const text = Array.from({ length: 200000 }, (_, k) => k % 500 === 7 ? "x" : "good").join("\n");
  const bytes = bytesOf(text + "\n"), lines = text.split("\n");
  let checked = 0;
  const damage = await damagedLines(bytes, async piece => {
    checked += piece.length;
    return check(piece);
  }, 1000);
  assert.equal(damage.length, 400);
  assert.ok(damage.every(it => lines[it.line - 1] === "x" &&
    textOf(bytes.subarray(it.begin, it.end)) === "x\n"));
  assert.ok(checked < 30 * bytes.length, String(checked / bytes.length));
  assert.equal(await damagedLines(bytes, check, 399), null);
  assert.equal(textOf(without(bytes.subarray(0, 40), damage.slice(0, 1))).includes("x"), false);
});

test("of a log that began anew the lines are kept that it no longer has, each once", () => {
  const lost = (log, now) => textOf(linesLost(bytesOf(log), bytesOf(now)));
  assert.equal(lost("a\nb\na\nc\n", "b\nd\n"), "a\nc\n");
  assert.equal(lost("a\nb\n", ""), "a\nb\n");
  assert.equal(lost("a\nb\n", "b\nc\na\n"), "");
  assert.equal(lost("", "a\n"), "");
});
const shifted = (bytes, shifts) => atOnce(shifting(bytes, shifts));
test("the moments of one receiver are moved, in each spelling and over midnight", () => {
  const log = "2024-06-21T23:59:50Z RX1 c0\n2024-06-21T23:59:50.250Z RX1 c0\n" +
    "2024-06-21T23:59:50Z RX2 c0\n";
  const moved = textOf(shifted(bytesOf(log), new Map([["RX1", 20]])));
  assert.equal(moved, "2024-06-22T00:00:10.000Z RX1 c0\n2024-06-22T00:00:10.250Z RX1 c0\n" +
    "2024-06-21T23:59:50Z RX2 c0\n");
  assert.deepEqual(movedIn(bytesOf(log), new Map([["RX1", 1], ["RX", 1]])), ["RX1"]);
  // to the millisecond, whose thousandth part no number has
  const fine = "2024-06-21T18:00:00.003Z RX1 c0\n";
  assert.equal(textOf(shifted(bytesOf(fine), new Map([["RX1", 0.001]]))),
    "2024-06-21T18:00:00.004Z RX1 c0\n");
  // what would be before 1970 stays
  const early = "1970-01-01T00:00:05Z RX1 c0\n";
  assert.equal(textOf(shifted(bytesOf(early), new Map([["RX1", -6]]))), early);
});

test("moments are moved in a log of many pieces, and a line stays whole", () => {
  const line = k => `2024-06-21T18:00:${String(k % 60).padStart(2, "0")}.000Z RX${k % 2} c0\n`;
  const log = Array.from({ length: 150000 }, (_, k) => line(k)).join("");
  const moved = textOf(shifted(bytesOf(log), new Map([["RX0", 3600]])));
  assert.equal(moved, log.replace(/T18(:..:..\.000Z RX0)/g, "T19$1"));
});
test("moments are moved in many short steps, and a log without them stays what it is", () => {
  const bytes = bytesOf(LINE.repeat(40000)), steps = shifting(bytes, new Map([["RX1", 1]]));
  let many = 0;
  for (let it = steps.next(); !it.done; it = steps.next()) many++;
  assert.ok(many > 4, String(many));
  assert.equal(shifted(bytes, new Map([["RX2", 1]])), bytes);
});
test("a log is looked through once for its receivers", () => {
  const bytes = bytesOf(LINE);
  assert.deepEqual([...receiversIn(bytes)], ["RX1"]);
  assert.equal(receiversIn(bytes), receiversIn(bytes));
});
