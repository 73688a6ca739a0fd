// What wants doing, as a controller has it: by right clocks, by gates too, and until somebody deals
// with it.
import assert from "node:assert/strict";
import { test } from "node:test";
import { needsOf, newsOf } from "../../page/src/app/alerts.js";
import { Journal } from "../../page/src/desks/journal.js";
import { inOrder } from "../../page/src/lists/messages.js";
import { isExcusedOf } from "../../page/src/lists/stations.js";
import { homeOf, needOf, silenceOf, unansweredOf } from "../../page/src/net/alarms.js";
import { entriesOf } from "../../page/src/net/log-entries.js";
import { hearings } from "../../page/src/net/hearings.js";
import { expectedOf, Names } from "../../page/src/net/roster.js";
import { placesOfWord } from "../../page/src/net/table-reader.js";
import { tableOf } from "../../page/src/net/table-lines.js";
import { atOnce } from "../../page/src/util/tasks.js";
import {
  allOfLines, message, moment, netOfLines, place, row, rowsOf, SETTINGS, thing,
} from "./tables.js";

const seconds = second => Date.parse(moment(second)) / 1000;
/** A journal of a desk by itself, which keeps nothing. */
const journalOf = (desk = "NET") => new Journal(desk, async () => null, null, () => 1e12);
const known = (journal = journalOf(), of = {}) => ({ gap: 30, silent: 30, missing: [], expected: 0,
  isLongAgo: () => false, isSilent: () => false, settings: SETTINGS, ownCall: "",
  markOf: alarm => journal.dealtWith(alarm)[0] || null, ...of });
const micE = (second, source, says, fields = {}) => row("mic-e", second, source,
  { latitude: "54.5", longitude: "-3.5", symbol: "/j", says, ...fields });

/** Two receivers with right clocks, and one that is an hour fast and alone hears Q1FAR. */
const fastClock = () => {
  const lines = [];
  for (let k = 0; k < 9; k++) {
    const text = `no. ${k}`, at = 400 * k;
    lines.push(place(at, "Q1A", 54, -3, { receivers: "A,B", text }),
      place(at + 3600, "Q1A", 54, -3, { receivers: "FAST", text }),
      place(at + 3600, "Q1FAR", 54, -3, { receivers: "FAST", text: `far ${k}` }),
      place(at, "Q1B", 54, -3, { receivers: "A", text }));
  }
  return lines;
};
test("ages count to the last moment of receivers whose clocks agree", () => {
  const all = allOfLines(fastClock());
  assert.equal(all.end, seconds(3200));
  assert.equal(Math.round(all.clocks.get("FAST").by), 3600);
  const net = netOfLines(fastClock());
  assert.deepEqual(net.whole.stations.map(it => [it.name, it.heardAt - seconds(3200)]),
    [["Q1A", 0], ["Q1B", 0], ["Q1FAR", 0]]);
  // in a part of the time too
  const some = netOfLines(fastClock(), [], { since: seconds(2000) });
  assert.deepEqual(some.whole.stations.map(it => it.heardAt), Array(3).fill(seconds(3200)));
  assert.equal(some.receivers.find(it => it.name === "FAST").clock.by, 3600);
});
test("where no clock is known to be right, or none is wrong, ages count to the last of all", () => {
  const two = k => [place(100 * k, "Q1A", 54, -3, { receivers: "A", text: `${k}` }),
    place(100 * k + 3600, "Q1A", 54, -3, { receivers: "C", text: `${k}` })];
  assert.equal(allOfLines([0, 1, 2, 3].flatMap(two)).end, seconds(3900));
  assert.equal(allOfLines([place(7, "Q1A", 54, -3)]).end, seconds(7));
});
test("an emergency that a fast clock alone heard has the hour of the others", () => {
  const net = netOfLines([...fastClock(), micE(3700, "Q1SOS", "emergency", { receivers: "FAST" }),
    micE(120, "Q1NEW", "emergency", { receivers: "A" })]);
  // and stands by that hour among others
  assert.deepEqual(needsOf(net.things, known()).map(it => it.text),
    ["EMERGENCY: Q1NEW, 18:02:00", "EMERGENCY: Q1SOS, 18:01:40 (19:01:40 by FAST)"]);
});

test("EMERGENCY as a word of a comment or a status counts, and is over where it is gone", () => {
  const words = lines => needsOf(netOfLines(lines).things, known()).map(it => it.text);
  const says = (second, text) => place(second, "Q1A", 54, -3, { text });
  for (const text of ["EMERGENCY", "!EMERGENCY!", "send help EMERGENCY at CP2"])
    assert.deepEqual(words([says(0, text)]), ["EMERGENCY: Q1A, 18:00:00"], text);
  for (const text of ["Emergency vehicle", "EMERGENCYS", "NOEMERGENCY", "EMERGENC"])
    assert.deepEqual(words([says(0, text)]), [], text);
  assert.deepEqual(words([row("status", 0, "Q1A", { text: "EMERGENCY" })]).length, 1);
  // what others are told isn't of the station, nor is the name of an object
  assert.deepEqual(words([row("message", 0, "Q1A", { name: "Q1B", text: "EMERGENCY" }),
    row("object", 0, "Q1A", { name: "EMERGENCY", state: "live", text: "x" })]), []);
  assert.deepEqual(words([says(0, "EMERGENCY"), says(9, "all well")]),
    ["Q1A said emergency at 18:00:00, and no longer does"]);
  // another kind of report doesn't take it back
  assert.deepEqual(words([micE(0, "Q1A", "emergency"), says(9, "on foot")]),
    ["EMERGENCY: Q1A, 18:00:00"]);
  assert.deepEqual(placesOfWord(tableOf("EMERGENCY xEMERGENCY EMERGENCY"), "EMERGENCY"), [0, 21]);
});

test("a need with which somebody deals says who, and the next one of that station rings", () => {
  const journal = journalOf(), lines = [micE(0, "Q1A", "emergency"), micE(600, "Q1A", "emergency")];
  const grades = () => needsOf(netOfLines(lines).things, known(journal))
    .map(it => [it.grade, it.text]);
  journal.add("dealt", { alarm: needOf(thing(netOfLines(lines), "Q1A")), note: "" });
  assert.deepEqual(grades(),
    [["warn", "EMERGENCY: Q1A, 18:10:00, dealt with (NET, 01:46:40)"]]);
  // as long as it goes on without a break it is the same
  lines.push(micE(2300, "Q1A", "emergency"));
  assert.equal(grades()[0][0], "warn");
  lines.push(micE(4101, "Q1A", "emergency"));
  assert.deepEqual(grades(), [["alarm", "EMERGENCY: Q1A, 19:08:21"]]);
  // or where it was over in between
  const again = [lines[0], micE(60, "Q1A", "in-service"), micE(120, "Q1A", "emergency")];
  assert.equal(needsOf(netOfLines(again).things, known(journal))[0].grade, "alarm");
  // what waits stands before what is dealt with
  assert.deepEqual(needsOf(netOfLines([...lines.slice(0, 2), micE(0, "Q1B", "priority")]).things,
    known(journal)).map(it => it.grade), ["bad", "warn"]);
});
test("a mark is taken back, and the first of two desks has it", () => {
  const one = journalOf("NET"), alarm = homeOf("Q1A");
  one.add("dealt", { alarm, note: "went home" });
  const [text] = one.entries.keys();
  one.hear(text.replace('"NET"', '"AID"').replace(/"id":"./, '"id":"x')
    .replace("1000000000000", "1000000000001"));
  assert.deepEqual(one.dealtWith(alarm).map(it => it.desk), ["NET", "AID"]);
  one.remove(one.dealtWith(alarm)[0].id);
  assert.deepEqual(one.dealtWith(alarm).map(it => it.desk), ["AID"]);
});
test("messages that wait are counted but for those with which somebody deals", () => {
  const ask = (text, second, fields) => message("Q1A", "Q1NET", text, "unanswered", second,
    { id: second, ...fields });
  const messages = [ask("a", 1), ask("b", 2),
    message("Q1B", "Q1C", "c", "unanswered", 3, { id: 3 }),
    message("Q1NET", "Q1A", "d", "rejected", 4, { id: 4 })];
  const net = netOfLines([], messages), journal = journalOf();
  const texts = () => newsOf(net, known(journal, { ownCall: "Q1NET" })).map(it => it.text)
    .filter(it => /message/.test(it));
  assert.deepEqual(texts(),
    ["3 messages unanswered, 2 of Q1NET", "1 message rejected, 1 of Q1NET"]);
  for (const it of net.messages.filter(one => one.text !== "b"))
    journal.add("dealt", { alarm: unansweredOf(it), note: "" });
  assert.deepEqual(texts(), ["1 message unanswered, 1 of Q1NET"]);
  // the same words of another hour are another message
  const later = netOfLines([], [ask("a", 7201, { id: 1 })]);
  assert.equal(journal.dealtWith(unansweredOf(later.messages[0])).length, 0);
});
test("what waits for one's own call stands first, and what is dealt with last", () => {
  const of = (source, addressee, text, state, second) =>
    message(source, addressee, text, state, second, { id: second });
  const net = netOfLines([], [of("Q1A", "Q1B", "other", "unanswered", 9),
    of("Q1NET", "Q1B", "mine", "unanswered", 1), of("Q1B", "Q1NET", "to me", "unanswered", 2),
    of("Q1A", "Q1B", "refused", "rejected", 3), of("Q1A", "Q1B", "done", "acknowledged", 4),
    of("Q1A", "Q1B", "dealt", "unanswered", 5)]), journal = journalOf();
  const dealt = net.messages.find(it => it.text === "dealt");
  journal.add("dealt", { alarm: unansweredOf(dealt), note: "" });
  const texts = ownCall => inOrder(net.messages, known(journal, { ownCall })).map(it => it.text);
  assert.deepEqual(texts("Q1NET"), ["to me", "mine", "other", "refused", "done", "dealt"]);
  assert.deepEqual(texts(""), ["other", "to me", "mine", "refused", "done", "dealt"]);
});

test("what a gate passes is said of its sender, and the gate was heard", () => {
  const net = netOfLines([place(0, "Q1A", 54, -3), place(9000, "Q1FAR", 50, 8, { gate: "Q1GATE" }),
    row("status", 9001, "Q1FAR", { gate: "Q1GATE", text: "x" })],
  [message("Q1FAR", "Q1A", "medics", "unanswered", 9000, { id: "1", gate: "Q1GATE" })]);
  const gate = thing(net, "Q1GATE");
  assert.deepEqual([gate.sent, gate.passed, gate.heardAt], [0, 2, seconds(9001)]);
  assert.equal(net.messages[0].gate, "Q1GATE");
  assert.equal(entriesOf(net)[0].text, "medics");
  const some = netOfLines([place(0, "Q1GATE", 1, 2), place(9000, "Q1FAR", 50, 8,
    { gate: "Q1GATE" })], [], { since: seconds(9500) });
  assert.equal(some.whole.stations.find(it => it.name === "Q1GATE").heardAt, seconds(9000));
});
test("an emergency by Mic-E that a gate passes is its sender's, and not the gate's", () => {
  const net = netOfLines([place(0, "Q1GATE", 54, -3), row("mic-e", 60, "Q1FAR", { gate: "Q1GATE",
    says: "emergency", latitude: 50, longitude: 8, symbol: "/a" })]);
  assert.deepEqual(["Q1FAR", "Q1GATE"].map(it => [thing(net, it).urgent, thing(net, it).needSince]),
    [["emergency", seconds(60)], ["", NaN]]);
  assert.deepEqual(needsOf(net.things, known()).map(it => it.text),
    ["EMERGENCY: Q1FAR, 18:01:00"]);
});
test("telemetry's names, queries and answers are no traffic, and bulletins go to all", () => {
  const of = (kind, second) => message("Q1A", "Q1B", kind, "unanswered", second,
    { class: kind, id: second });
  const kinds = ["message", "bulletin", "announcement", "query", "telemetry", "weather-bulletin",
    "answer"];
  const net = netOfLines([], kinds.map(of)), texts = list => list.map(it => it.text);
  assert.deepEqual(texts(net.messages), ["message"]);
  assert.deepEqual(texts(net.bulletins), ["bulletin", "announcement", "weather-bulletin"]);
  assert.deepEqual(texts(entriesOf(net)),
    ["message", "bulletin", "announcement", "weather-bulletin"]);
});
test("who repeated whom leaves out aliases and gates, and has digipeaters too", () => {
  const via = (text, second, fields = {}) => place(second, "Q1A", 54, -3, { via: text, ...fields });
  const { repeated } = atOnce(hearings(rowsOf([via("DB0HIL*,WIDE1*,DB0TOP*,WIDE2-1", 0),
    via("DB0HIL*,WIDE1*", 40), via("WIDE1*", 80), via("DB0HIL,WIDE1-1", 120), via("", 160),
    via("TCPIP,Q1GATE*", 200, { gate: "Q1GATE" })]), -Infinity));
  assert.deepEqual([...repeated.counts].map(([key, of]) => [key, [...of]]),
    [["Q1A", [["DB0HIL", 2], ["WIDE1", 1]]], ["all", [["DB0HIL", 2], ["DB0TOP", 1], ["WIDE1", 1]]],
      ["DB0HIL", [["DB0TOP", 1]]]]);
});

test("one for whom nobody waits isn't missing, and goes on under another call", () => {
  const net = netOfLines([place(0, "Q1RUN-7", 54, -3), place(9000, "Q1RUN-9", 54, -3)]);
  const list = [{ call: "Q1RUN-7", name: "Runner", group: "", bib: "" },
    { call: "Q1GONE", name: "", group: "", bib: "" }];
  const excused = new Set([homeOf("Q1GONE")]);
  const isExcused = it => excused.has(homeOf(it.name)) || excused.has(silenceOf(it));
  const waited = expectedOf(list, net.whole.stations);
  assert.deepEqual(waited.map(it => isExcusedOf(it, { isExcused })), [false, true]);
  excused.add(silenceOf(waited[0].key && { name: "Q1RUN-7", heardAt: seconds(0) }));
  assert.equal(isExcusedOf(waited[0], { isExcused }), true);
  const before = new Map([["Q1RUN-9", "Q1RUN-7"]]);
  const [runner] = expectedOf(list, net.whole.stations, before);
  assert.deepEqual([runner.heardAt, runner.key], [seconds(9000), "station Q1RUN-9"]);
  assert.equal(new Names(list, before).shown("Q1RUN-9"), "Runner (Q1RUN-9)");
});
