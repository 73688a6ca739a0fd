// The journals of desks, and the stream of a server.

import assert from "node:assert/strict";
import { test } from "node:test";
import { connectionWords, nowOf, siteWords } from "../../page/src/app/net-panel.js";
import { courseFor, most } from "../../page/src/desks/course.js";
import { Journal, spelling } from "../../page/src/desks/journal.js";
import { eventsIn, goneOn, patience, Stream, toldBy } from "../../page/src/desks/stream.js";
import { readBase } from "../../page/src/formats/read-vector.js";
import { OwnLines } from "../../page/src/ics309/own-lines.js";

const bytes = text => new TextEncoder().encode(text);
const text = it => it && new TextDecoder().decode(it);
const storeOf = () => {
  const kept = new Map();
  return { getItem: key => kept.get(key) ?? null, setItem: (key, it) => kept.set(key, it) };
};
const LINE = { at: 1718992800.5, from: "A", to: "B", id: "1", text: "Gr\u00fc\u00dfe, \u{1f600}" };

test("what is told goes on with what was read, or is asked for", () => {
  const told = toldBy("2024-06-21/HILL.log 4 12\nab c\ndef");
  assert.equal(told.name, "2024-06-21/HILL.log");
  assert.equal(text(goneOn(bytes("xyz\n"), told)), "xyz\nab c\ndef\n");
  // twice, and over what is there
  assert.equal(text(goneOn(bytes("xyz\nab c\n"), told)), "xyz\nab c\ndef\n");
  assert.equal(text(goneOn(bytes("xyz\nab c\ndef\ngh\n"), told)), "xyz\nab c\ndef\ngh\n");
  // something is missing, or it is another file
  assert.equal(goneOn(bytes("xy\n"), told), null);
  assert.equal(goneOn(bytes("xyz\nAB C\n"), told), null);
  assert.equal(goneOn(bytes("xyz\n"), toldBy("a b.log 4 12", false)), null);
  assert.equal(toldBy("a b.log 4 12", false).name, "a b.log");
});
test("events of a text are those of a stream", () => {
  assert.deepEqual(eventsIn("retry: 2000\n\nevent: lines\ndata: a.log 0 4\ndata: one\n\n" +
    "event: beat\ndata: 17\n\n"), [["lines", "a.log 0 4\none"], ["beat", "17"]]);
});

/** Who listens, and the streams and questions that were opened. */
function listening(answer = async () => "") {
  const opened = [], asked = [], said = [], sizes = new Map();
  const listener = { sizes: () => sizes, take: it => said.push([it.name, text(it.bytes)]),
    anew: name => said.push(["anew", name]), gone: name => said.push(["gone", name]),
    net: of => said.push(["net", of]), alive: is => said.push(["alive", is]) };
  const stream = new Stream(listener, url => {
    const it = { url, on: {}, close() { it.isClosed = true; },
      addEventListener: (kind, run) => { it.on[kind] = data => run({ data }); } };
    opened.push(it);
    return it;
  }, url => {
    asked.push(url);
    return answer(url);
  });
  return { stream, opened, asked, said, sizes, stop: () => clearTimeout(stream.timer) };
}
test("a stream begins again where it was", () => {
  const { stream, opened, said, sizes, stop } = listening();
  sizes.set("2024-06-21/HILL.log", 12);
  stream.begin();
  assert.equal(opened[0].url, "events?have=2024-06-21%2FHILL.log%3A12");
  opened[0].on.lines("2024-06-21/HILL.log 12 16\nabc");
  opened[0].on.anew("2024-06-21/HILL.log");
  opened[0].on.gone("2024-06-20/HILL.log");
  opened[0].on.net("{}");
  assert.deepEqual(said.filter(([kind]) => kind !== "alive"), [["2024-06-21/HILL.log", "abc\n"],
    ["anew", "2024-06-21/HILL.log"], ["gone", "2024-06-20/HILL.log"], ["net", "{}"]]);
  sizes.set("2024-06-21/HILL.log", 20);
  opened[0].onerror();
  stop();
  assert.ok(opened[0].isClosed);
  assert.deepEqual(said.at(-1), ["alive", false]);
  stream.begin();
  stop();
  assert.equal(opened[1].url, "events?have=2024-06-21%2FHILL.log%3A20");
});
test("where a proxy cuts streams, the server is asked", async () => {
  let isThere = true;
  const { stream, opened, asked, said, stop } = listening(async () => {
    if (!isThere) throw new Error("away");
    return "event: lines\ndata: a.log 0 4\ndata: one\n\nevent: beat\ndata: 17\n\n";
  });
  for (let k = 0; k < 2; k++) {
    stream.begin();
    opened[k].onerror();
    stop();
  }
  await stream.begin();
  stop();
  assert.deepEqual([opened.length, asked], [2, ["events?once=1"]]);
  assert.deepEqual(said.slice(-2), [["alive", true], ["a.log", "one\n"]]);
  stream.begin();
  opened[2].onerror();
  stop();
  isThere = false;
  await stream.begin();
  stop();
  assert.deepEqual(said.at(-1), ["alive", false]);
  assert.ok(patience.ask < patience.silent);
});
/** Begins so often, each stream without a word; what was begun: a stream, or a question. */
async function begunInVain({ stream, opened, asked, stop }, often) {
  const begun = [];
  for (let k = 0; k < often; k++) {
    const many = opened.length + asked.length, streams = opened.length;
    await stream.begin();
    if (opened.length > streams) opened.at(-1).onerror();
    stop();
    assert.equal(opened.length + asked.length, many + 1);
    begun.push(opened.length > streams ? "stream" : "ask");
  }
  return begun;
}
test("a server that was away is listened to again, and not asked for ever", async t => {
  let isThere = false;
  const of = listening(async () => {
    if (!isThere) throw new Error("away");
    return "event: beat\ndata: 17\n\n";
  });
  t.after(of.stop);
  // it comes back just when it is asked, and the next stream has a word
  await begunInVain(of, 2);
  for (let turn = 0; turn < 2; turn++) {
    isThere = true;
    assert.deepEqual(await begunInVain(of, 1), ["ask"]);
    const { length } = of.opened;
    await of.stream.begin();
    assert.equal(of.opened.length, length + 1);
    of.opened.at(-1).on.beat("18");
    isThere = false;
    of.opened.at(-1).onerror();
    of.stop();
    assert.deepEqual(await begunInVain(of, 3), ["stream", "stream", "ask"]);
  }
  // where it answers, and no stream comes through all the same, it is asked
  isThere = true;
  assert.deepEqual(await begunInVain(of, 5), ["ask", "stream", "ask", "ask", "ask"]);
});

test("an entry has one spelling, which the server takes", () => {
  const name = "\u00fc\x7f";
  assert.equal(spelling({ kind: "name", id: "1", desk: "D", at: 1, call: "Q0A", name }),
    '{"at":1,"call":"Q0A","desk":"D","id":"1","kind":"name","name":"\\u00fc\\u007f"}');
});
test("desks that were away have the same lines, in whatever order they hear of them", async () => {
  const server = new Set(), store = storeOf();
  let isThere = false;
  const send = async (_, all) => {
    if (isThere) for (const it of all.trim().split("\n")) server.add(it);
    return isThere ? 0 : null;
  };
  const one = new Journal("ONE", send, store), two = new Journal("TWO", send, storeOf());
  one.addLine(LINE);
  two.addLine({ ...LINE, text: "other" });
  two.addLine({ ...LINE, text: "wrong" });
  await one.sendAll();
  assert.deepEqual([server.size, one.waiting.size], [0, 1]);
  // the browser was closed, and its lines are there
  const again = new Journal("ONE", send, store);
  assert.deepEqual(again.lines, [{ ...LINE, desk: "ONE" }]);
  isThere = true;
  await again.sendAll();
  await two.sendAll();
  two.removeLines([{ ...LINE, text: "wrong" }]);
  await two.sendAll();
  const journal = [...server];
  again.hear(journal.join("\n"));
  two.hear([...journal].reverse().join("\n"));
  assert.equal(two.hear(journal.join("\n")), false);
  const texts = it => it.lines.map(line => line.text).sort();
  assert.deepEqual(texts(again), [LINE.text, "other"].sort());
  assert.deepEqual(texts(two), texts(again));
  assert.equal(again.waiting.size + two.waiting.size, 0);
});
test("two windows of a desk lose nothing, and a browser that keeps nothing says so", () => {
  const store = storeOf(), away = async () => null;
  const one = new Journal("A", away, store), two = new Journal("A", away, store);
  one.addLine(LINE);
  two.addLine({ ...LINE, text: "other" });
  one.addLine({ ...LINE, text: "third" });
  assert.equal(new Journal("A", away, store).lines.length, 3);
  const full = { getItem: () => null, setItem() { throw new Error("full"); } };
  const it = new Journal("A", away, full);
  it.addLine(LINE);
  assert.deepEqual([it.isStored, it.lines.length], [false, 1]);
});
test("tabs of a page by itself have one another's marks, and what it carries stays kept", () => {
  const store = storeOf(), open = () => new Journal("", async () => null, store, Date.now, "marks");
  const one = open(), other = open(), alarms = it => [...it.marks.keys()];
  let heard = 0;
  other.onChange = () => heard++;
  one.add("dealt", { alarm: "silent Q1A", note: "" });
  other.unite();
  other.unite();
  assert.deepEqual([heard, alarms(other)], [1, ["silent Q1A"]]);
  other.add("dealt", { alarm: "silent Q1B", note: "" });
  // a saved page carries them, and the page of which it was saved has them from the store alone
  const saved = open();
  saved.unite([...other.entries.keys()].join("\n"));
  saved.add("dealt", { alarm: "silent Q1C", note: "" });
  one.add("dealt", { alarm: "silent Q1D", note: "" });
  assert.deepEqual(alarms(open()).sort(), "ABCD".split("").map(it => `silent Q1${it}`));
});
test("a page hears of what is new, of its own desk and of others", () => {
  const it = new Journal("A", async () => null, storeOf());
  let times = 0;
  it.onChange = () => times++;
  it.add("note", { call: "Q0A", text: "x" });
  assert.equal(times, 1);
  it.hear([...it.entries.keys()].join("\n"));
  assert.equal(times, 1);
  it.hear(spelling({ at: 1, desk: "B", id: "2", kind: "note", call: "Q0B", text: "" }));
  assert.equal(times, 2);
});
test("what is refused doesn't wait for ever", async () => {
  const it = new Journal("A", async () => 1, storeOf());
  it.add("note", { call: "Q0A", text: "x" });
  await new Promise(setImmediate);
  assert.deepEqual([it.refused, it.waiting.size], [1, 0]);
  assert.deepEqual(it.hear("no entry\n{}\nnull\n[]\n" + JSON.stringify({ kind: "note", id: 1 })),
    false);
});
test("of several names the last counts, for all desks alike", () => {
  const entry = (at, name, id) => spelling({ at, call: "Q0A", desk: "D", id, kind: "name", name });
  const all = [entry(1, "Hill", "1"), entry(2, "Sweep", "2"), entry(2, "Lead", "3")];
  const one = new Journal("A", async () => 0, null), two = new Journal("B", async () => 0, null);
  all.forEach(it => one.hear(it));
  all.reverse().forEach(it => two.hear(it));
  assert.deepEqual([...one.names], [...two.names]);
  assert.equal(one.names.size, 1);
  one.hear(entry(3, "", "4"));
  assert.equal(one.names.size, 0);
});
test("who deals with an alarm is said, until that is taken back; the next alarm is another", () => {
  let now = 100;
  const it = new Journal("A", async () => 0, null, () => now++);
  const id = it.add("dealt", { alarm: "17 Q0A", note: "car is on its way" });
  it.hear(spelling({ alarm: "17 Q0A", at: 90, desk: "B", id: "2", kind: "dealt", note: "" }));
  assert.deepEqual(it.dealtWith("17 Q0A").map(of => [of.desk, of.at]), [["B", 90], ["A", 100]]);
  assert.deepEqual(it.dealtWith("18 Q0A"), []);
  it.remove(id);
  assert.deepEqual(it.dealtWith("17 Q0A").map(of => of.desk), ["B"]);
  it.add("note", { call: "Q0A", text: "diabetic" });
  it.add("setting", { name: "title", value: "Race" });
  it.add("setting", { name: "title", value: "Fell race" });
  assert.equal(it.notesOf("Q0A").length, 1);
  assert.equal(it.settings.get("title"), "Fell race");
});
test("the log of an operator has the lines of all desks", () => {
  const journal = new Journal("A", async () => 0, null), own = new OwnLines(storeOf());
  own.open("Race");
  own.add({ ...LINE, text: "before" });
  own.shared = journal;
  own.add(LINE);
  const theirs = new Journal("B", async () => 0, null);
  theirs.addLine({ ...LINE, text: "theirs" });
  journal.hear([...theirs.entries.keys()].join("\n"));
  const texts = () => own.lines.map(it => it.text).sort();
  assert.deepEqual(texts(), [LINE.text, "before", "theirs"].sort());
  own.remove({ ...LINE, text: "theirs" });
  assert.deepEqual(texts(), [LINE.text, "before"].sort());
  // what was taken away and is added again is there again
  own.add({ ...LINE, text: "theirs" });
  assert.deepEqual(texts(), [LINE.text, "before", "theirs"].sort());
});
test("the page says how it is connected, and how its sites are", () => {
  const journal = new Journal("BASE", async () => null, storeOf());
  assert.deepEqual(connectionWords({ net: {}, journal, isThere: true }),
    ["connected as desk BASE"]);
  journal.addLine(LINE);
  assert.deepEqual(connectionWords({ net: {}, journal, isThere: false }),
    ["not connected as desk BASE", "1 entry of this desk not sent yet"]);
  assert.deepEqual(connectionWords({ net: {}, journal: null, isThere: true }),
    ["connected, to read"]);
  const site = { clock: 0, refused: 0, day: "" };
  assert.deepEqual(siteWords({ days: ["2024-06-20", "2024-06-21", "2024-06-22"],
    sites: { A: site, B: { ...site, clock: 7200 },
      C: { ...site, refused: 2, day: "2099-01-01" }, D: { ...site, day: "1970-01-01" } } }),
  ["the clock of B is 2 h ahead", "C has lines of 2099-01-01, which is to come",
    "2 lines of C refused", "D has lines of 1970-01-01, which is today by its clock"]);
});
test("what a desk has set counts before what the server was begun with, also nothing", () => {
  const net = { title: "Race", silent: 30, roster: "Q0A Sweep", courses: ["{}", "{}"],
    tiles: ["lakes.pmtiles", "hills.mbtiles"], days: [], sites: {} };
  assert.deepEqual(nowOf(net, new Map()), { title: "Race", silent: "30", roster: "Q0A Sweep",
    courses: ["{}", "{}"], tiles: "lakes.pmtiles" });
  assert.deepEqual(nowOf(net, new Map([["title", "Day 2"], ["silent", "5"], ["roster", ""],
    ["course", ""], ["tiles", ""]])), { title: "Day 2", silent: "5", roster: "", courses: [""],
    tiles: "" });
  assert.equal(nowOf({ ...net, tiles: [] }, new Map()).tiles, "");
});
test("a course that an entry can't carry is thinned, and its ends stay", () => {
  const courseOf = n => JSON.stringify({ type: "FeatureCollection", features: [
    { type: "Feature", properties: { name: "finish" },
      geometry: { type: "Point", coordinates: [-3.5, 54.5] } },
    { type: "Feature", properties: {}, geometry: { type: "LineString", coordinates:
      Array.from({ length: n }, (_, k) => [-3.5 + k / 123456.7, 54.5 + k / 98765.4]) } }] });
  assert.equal(courseFor(courseOf(10)), courseOf(10));
  const long = courseOf(60000), text = courseFor(long), base = readBase(text);
  assert.ok(text.length <= most.letters && long.length > 1e6);
  assert.deepEqual([base.points.length, base.points[0].name, base.lines.length], [1, "finish", 1]);
  const [[line], [whole]] = [base.lines, readBase(long).lines];
  assert.ok(line.length / 3 > 4000);
  for (const k of [0, 1, 2]) {
    assert.ok(Math.abs(line[k] - whole[k]) < 1e-6);
    assert.ok(Math.abs(line.at(k - 3) - whole.at(k - 3)) < 1e-6);
  }
  assert.throws(() => courseFor("Q0A Sweep"));
  const many = { type: "MultiPoint", coordinates: Array.from({ length: 60000 }, () => [1, 2]) };
  assert.throws(() => courseFor(JSON.stringify(many)), /too many points/);
});
test("half a letter, as a text may have that was cut, doesn't keep a line from the server", () => {
  const it = new Journal("A", async () => 0, null);
  it.addLine({ ...LINE, text: "so\ud83d", from: "\ude00B" });
  assert.deepEqual(it.lines.map(of => [of.from, of.text]), [["\ufffdB", "so\ufffd"]]);
  assert.ok(LINE.text.includes("\u{1f600}"));
  it.addLine(LINE);
  assert.equal(it.lines.length, 2);
  assert.ok(it.lines.some(of => of.text === LINE.text));
});

// ---- a model: what is sent is lost, comes twice and late, and desks and the server begin again

/** Numbers from 0 to below 1, the same for each seed. */
function lot(seed) {
  let n = seed + 1;
  return () => {
    n = Math.imul(n ^ n >>> 15, 0x2c1b3c6d) + 0x9e3779b9 | 0;
    return (Math.imul(n ^ n >>> 12, 0x297a2d39) >>> 0) / 2 ** 32;
  };
}
/** A server that is a set of lines for each desk, as files that only grow. */
class Base {
  constructor(chance) {
    this.chance = chance;
    this.trouble = 0.3;
    this.files = new Map();
    this.late = [];
  }
  take(desk, all) {
    const lines = this.files.get(desk) || [];
    this.files.set(desk, [...lines, ...all.split("\n").filter(it => it && !lines.includes(it))]);
  }
  /** Takes what a desk sends, unless it is lost; the answer may be lost too. */
  async send(desk, all) {
    const { chance, trouble } = this;
    if (chance() < trouble) this.late.push([desk, all]);
    if (chance() < trouble) return null;
    this.take(desk, all);
    for (const it of this.late.splice(0, Math.floor(chance() * 2))) this.take(...it);
    return chance() < trouble ? null : 0;
  }
  /** What a desk is told: a part of a file from some place on, which it may have had. */
  tell(journal) {
    for (const lines of this.files.values()) {
      const begin = Math.floor(this.chance() * (lines.length + 1));
      journal.hear(lines.slice(begin, begin + 1 + Math.floor(this.chance() * 9)).join("\n"));
    }
  }
}
test("desks and their server have the same in the end, whatever is lost or late", async () => {
  for (let seed = 0; seed < 150; seed++) {
    const chance = lot(seed), base = new Base(chance), stores = ["A", "B", "C"].map(storeOf);
    let now = 0;
    const open = k => new Journal("ABC"[k], (desk, all) => base.send(desk, all), stores[k],
      () => now++);
    const desks = stores.map((_, k) => open(k)), texts = new Set();
    for (let step = 0; step < 60; step++) {
      const k = Math.floor(chance() * 3), desk = desks[k], what = Math.floor(chance() * 6);
      if (what === 0) {
        texts.add(`line ${step}`);
        desk.addLine({ ...LINE, text: `line ${step}` });
      } else if (what === 1 && desk.lines.length) {
        const line = desk.lines[Math.floor(chance() * desk.lines.length)];
        desk.removeLines([line]);
        texts.delete(line.text);
      } else if (what === 2) desk.add("setting", { name: "title", value: `title ${step}` });
      else if (what === 3) desks[k] = open(k); // its browser was closed
      else base.tell(desk);
      await desk.sendAll();
    }
    base.trouble = 0;
    for (const it of [...base.late, ...base.late]) base.take(...it);
    for (let turn = 0; turn < 2; turn++)
      for (const it of desks) {
        await it.sendAll();
        await new Promise(setImmediate);
        for (const lines of base.files.values()) it.hear(lines.join("\n"));
      }
    const all = [...base.files.values()].flat();
    assert.equal(new Set(all).size, all.length);
    for (const it of desks) {
      assert.deepEqual([...it.entries.keys()].sort(), [...all].sort(), `seed ${seed}`);
      assert.deepEqual(it.lines.map(of => of.text).sort(), [...texts].sort(), `seed ${seed}`);
      assert.equal(it.settings.get("title"), desks[0].settings.get("title"));
      assert.equal(it.waiting.size, 0);
    }
  }
});
