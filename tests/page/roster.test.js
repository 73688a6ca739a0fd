import assert from "node:assert/strict";
import { test } from "node:test";
import {
  expectedOf, faultWords, joined, Names, readRoster, rosterText,
} from "../../page/src/net/roster.js";

const calls = text => readRoster(text).list.map(it => [it.call, it.name, it.group, it.bib]);

test("a line is a call and a name, or fields with commas, semicolons or tabs", () => {
  assert.deepEqual(calls("Q1RUN-7 the leader, in red\nq1med;Medic;\"first; aid\";12\n" +
    "Q1VAN-9\tVan\n\"Q1SEA-8\", \"the \"\"boat\"\"\"\n"), [
    ["Q1RUN-7", "the leader, in red", "", ""], ["Q1MED", "Medic", "first; aid", "12"],
    ["Q1VAN-9", "Van", "", ""], ["Q1SEA-8", "the \"boat\"", "", ""]]);
});
test("a head names columns in any order, and others are passed over", () => {
  assert.deepEqual(calls("\ufeff# of the race\r\n\r\nNumber,Phone,Tactical,Callsign\r\n" +
    "7,555,Leader,q1run-7\r\n"),
    [["Q1RUN-7", "Leader", "", "7"]]);
});
test("beside a call alone stands a name, and of two columns of names the first counts", () => {
  for (const [text, name] of [["Callsign,Location\nQ1A,Start\n", "Start"],
    ["call,\nQ1A,Start\n", "Start"], ["call,number\nQ1A,Start\n", ""], ["call\nQ1A x\n", ""],
    ["call,name,who\nQ1A,one,two\n", "one"]])
    assert.equal(calls(text)[0][1], name, text);
});
test("a first column that isn't the call may be empty, or have blanks", () => {
  const both = [["Q1MED-7", "second post", "", ""], ["Q1A", "", "", "first, with us"]];
  assert.deepEqual(calls("number,callsign,name\n,Q1MED-7,second post\n\"first, with us\",Q1A\n"),
    both);
  assert.deepEqual(calls("no\tcall\tname\n\tQ1MED-7\tsecond post\nfirst, with us\tQ1A\t\n"), both);
  assert.deepEqual(calls(";call;name\n;Q1MED-7;second post\n7 x;Q1A;\n"),
    [both[0], ["Q1A", "", "", ""]]);
  // lines without the head's sign are as before
  assert.deepEqual(calls("number,call\n7;Q1A\n8 Q1B\n").map(it => it[0]), ["Q1A", "Q1B"]);
  assert.deepEqual(calls("call,name\nQ1A Leader, in red\n"), [["Q1A", "Leader, in red", "", ""]]);
});
test("what is no call, or stands there twice, is said with its line", () => {
  const { list, faults } = readRoster("Q1A\n\n# no\nTOOLONGCALL x\nQ1A-0 again\nQ1B-16\nQ1B-15\n");
  assert.deepEqual(list.map(it => it.call), ["Q1A", "Q1B-15"]);
  assert.deepEqual(faults.map(it => it.line), [4, 5, 6]);
});
test("a list of all calls is read at once, and of many faults a few are said", () => {
  const call = n => `Q${String.fromCharCode(65 + n % 26)}${Math.floor(n / 26)}`;
  // on a busy machine all takes longer, but no more of a processor
  const begin = process.cpuUsage().user, many = Array.from({ length: 60000 }, (_, n) => call(n));
  assert.equal(readRoster(many.join("\n")).list.length, many.length);
  assert.ok(process.cpuUsage().user - begin < 3e6);
  const { faults } = readRoster("a-b\n".repeat(9) + "\u202eab x\n");
  assert.deepEqual(faultWords(faults).slice(4), ["line 5: a-b is no call", "and 5 more"]);
  assert.deepEqual(faultWords(faults.slice(9)), ["line 10: \\xe2\\x80\\xaeab is no call"]);
  assert.deepEqual(faultWords([]), []);
});
test("a call stands for itself alone, and with -* for each of its SSIDs and none", () => {
  const heard = [{ key: "a", name: "Q1A-7", kind: "station", heardAt: 5 },
    { key: "b", name: "Q1B", kind: "station", heardAt: 6 },
    { key: "c", name: "Q1B-1", kind: "station", heardAt: 4 }];
  const expected = text => expectedOf(readRoster(text).list, heard)
    .map(it => [it.heardAt, it.key]);
  assert.deepEqual(expected("Q1A\nQ1A-*\nQ1A-7\nQ1B-*\nQ1B\nQ1B-1\nQ1B-2\n"),
    [[-Infinity, ""], [5, "a"], [5, "a"], [6, "b"], [6, "b"], [4, "c"], [-Infinity, ""]]);
});
test("a station has the name of its own line before that of its -* line", () => {
  const names = new Names(readRoster("Q1A-7 Leader\nQ1A-* Runner\nQ1B\n").list);
  assert.deepEqual(["Q1A-7", "Q1A-8", "Q1A", "Q1B", "Q1C"].map(it => names.shown(it)),
    ["Leader (Q1A-7)", "Runner (Q1A-8)", "Runner (Q1A)", "Q1B", "Q1C"]);
  assert.equal(new Names([{ call: "Q1A", name: "x\u202ey", group: "", bib: "" }]).shown("Q1A"),
    "x\\xe2\\x80\\xaey (Q1A)");
});
test("of several rosters the first line of a call counts", () => {
  const rosters = [readRoster("Q1A one\n"), readRoster("Q1A two\nQ1B\n")];
  assert.deepEqual(joined(rosters).map(it => it.name), ["one", ""]);
});
test("the text of a roster is read as that roster", () => {
  const text = "Q1A \"the; \"\"leader\"\"\",\nQ1B-*;x;\"g,h\";7\n", { list } = readRoster(text);
  assert.deepEqual(readRoster(rosterText(list)), { list, faults: [] });
});
