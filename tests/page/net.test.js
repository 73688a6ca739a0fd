import assert from "node:assert/strict";
import { test } from "node:test";
import { apartText, clockWords } from "../../page/src/net/clock-words.js";
import { hearings } from "../../page/src/net/hearings.js";
import { needsOf, newsOf } from "../../page/src/app/alerts.js";
import { expectedOf } from "../../page/src/net/roster.js";
import { waysFor } from "../../page/src/lists/stations.js";
import { Alarm } from "../../page/src/app/alarm-sound.js";
import { atOnce } from "../../page/src/util/tasks.js";
import {
  message, messageTable, moment, netOfLines, place, readMessages, row, rowsOf, SETTINGS,
  settingsFor, thing,
} from "./tables.js";

const OF = { gap: 30, silent: 30, isLongAgo: () => false, isSilent: () => false, missing: [],
  expected: 0, settings: SETTINGS, markOf: () => null, ownCall: "" };
const LEADER = [{ call: "Q1A-*", name: "Leader", group: "", bib: "" }];
const micE = (second, source, says) => row("mic-e", second, source,
  { latitude: "54.5", longitude: "-3.5", symbol: "/j", says });

test("who is in need comes first of all news, an emergency before priority", () => {
  const net = netOfLines([micE(0, "Q1A", "priority"), micE(1, "Q1B", "emergency"),
    micE(2, "Q1C", "en-route")], [message("Q1A", "Q1B", "x", "unanswered", 0, { id: 1 })]);
  const news = newsOf(net, OF);
  assert.deepEqual(news.slice(0, 3).map(it => [it.grade, it.text]), [
    ["alarm", "EMERGENCY: Q1B, 18:00:01"], ["bad", "priority: Q1A, 18:00:00"],
    ["bad", "1 message unanswered"]]);
  assert.equal(news[0].pick, "station Q1B");
});

test("many in need don't fill the page", () => {
  const lines = Array.from({ length: 1000 }, (_, k) => micE(k, `Q1N${k}`, "emergency"));
  const news = newsOf(netOfLines([...lines, micE(0, "Q1A", "priority")]), OF);
  assert.equal(news[5].text, "EMERGENCY: Q1N994, 18:16:34");
  assert.deepEqual([news[6].grade, news[6].text, news[7].text],
    ["alarm", "and 995 more who are or were in need", "0 messages unanswered"]);
});
test("an emergency that is over is said, and no longer as one", () => {
  const net = netOfLines([micE(0, "Q1A", "emergency"), micE(9, "Q1A", "in-service")]);
  assert.deepEqual(needsOf(net.things, OF).map(it => [it.grade, it.text]),
    [["warn", "Q1A said emergency at 18:00:00, and no longer does"]]);
});

test("rejected messages are counted, and kinds that aren't known", () => {
  const net = netOfLines([row("beacon", 0, "Q1A"), place(0, "Q1Z", 0, 0)],
    [message("Q1A", "Q1B", "x", "rejected", 0, { id: 1 })]);
  const texts = newsOf(net, OF).map(it => it.text);
  assert.ok(texts.includes("1 message rejected"));
  assert.ok(texts.includes("1 transmission of a kind that this page doesn\u2019t know"));
  assert.ok(texts.includes("1 station at 0, 0, which is no fix"));
});

test("what wants doing stays in sight where a part of the time alone is shown", () => {
  const lines = [micE(0, "Q1A", "emergency"), place(1, "Q1A", 54, -3), place(2, "Q1RUN", 54, -3),
    place(3, "Q1B", 54, -3, { receivers: "RX1,RX2" }), place(9000, "Q1B", 54, -3)];
  const net = netOfLines(lines, [message("Q1A", "Q1B", "x", "unanswered", 3, { id: 1 }),
    message("Q1B", "Q1A", "y", "unanswered", 8999, { id: 2 })],
  { since: Date.parse(moment(5400)) / 1000 });
  assert.deepEqual(net.things.map(it => it.name), ["Q1B"]);
  const isLongAgo = last => Date.parse(moment(9000)) / 1000 - last > 1800;
  const isSilent = it => isLongAgo(it.heardAt);
  const news = newsOf(net, { ...OF, isLongAgo, isSilent });
  assert.deepEqual(news.map(it => [it.grade, it.text, it.isEarlier]), [
    ["alarm", "EMERGENCY: Q1A, 18:00:00", undefined],
    ["bad", "2 messages unanswered (1 earlier than is shown)", true],
    ["warn", "2 stations silent for over 30 min (2 earlier than is shown)", true],
    ["warn", "nothing heard for over 30 min by RX2", undefined]]);
  // who is expected was heard, however long ago
  const [runner] = expectedOf([{ call: "Q1RUN" }], net.whole.stations);
  assert.equal(runner.heardAt, Date.parse(moment(2)) / 1000);
});

test("the alarm rings for what is new, and only where it is on", () => {
  let rung = 0;
  const alarm = new Alarm(() => rung++), hear = (...ids) => alarm.hear(ids.map(id => ({ id })));
  assert.deepEqual(hear("a"), [{ id: "a" }]);
  assert.equal(rung, 0);
  alarm.turn(true);
  assert.equal(rung, 1);
  assert.deepEqual(hear("a"), []);
  assert.equal(rung, 1);
  hear("a", "b");
  hear("a", "b");
  assert.equal(rung, 2);
  // another part of the time, and all of it again
  hear();
  hear("a", "b");
  assert.equal(rung, 2);
});
test("the alarm rings once for a need, also where it is worded in another way", () => {
  let rung = 0;
  const alarm = new Alarm(() => rung++), lines = [micE(0, "Q1A-7", "emergency")];
  alarm.turn(true, false);
  const hear = (settings = SETTINGS) =>
    alarm.hear(needsOf(netOfLines(lines).things, { ...OF, settings })).map(it => it.text);
  assert.deepEqual(hear(), ["EMERGENCY: Q1A-7, 18:00:00"]);
  assert.deepEqual(hear(settingsFor(LEADER, { dated: "day" })), []);
  lines.push(micE(60, "Q1A-7", "emergency"));
  assert.deepEqual(hear(), ["EMERGENCY: Q1A-7, 18:01:00"]);
  assert.equal(rung, 2);
  // another receiver heard it a little later
  const later = micE(60, "Q1A-7", "emergency").split("\t");
  later[2] = moment(75);
  lines[1] = later.join("\t");
  assert.deepEqual(hear(), []);
  assert.equal(needsOf(netOfLines(lines).things, OF)[0].text, "EMERGENCY: Q1A-7, 18:01:15");
});

test("two wrong clocks don't hide one another", () => {
  const lines = [];
  for (let k = 0; k < 9; k++)
    for (const [name, ahead] of [["RX1", 0], ["RX2", 0], ["COAST", 7200], ["HILL", -3600]])
      lines.push(place(200 * k + ahead + (name === "RX2" ? 31 : 0), "Q1A", 54, -3,
        { receivers: name, text: `no. ${k}` }));
  const net = netOfLines(lines, [], { gap: 40 });
  const by = Object.fromEntries(net.receivers.map(it => [it.name, Math.round(it.clock.by)]));
  assert.ok(Math.abs(by.RX1) <= 40 && Math.abs(by.RX2) <= 40);
  assert.ok(Math.abs(by.COAST - 7200) <= 40 && Math.abs(by.HILL + 3600) <= 40, JSON.stringify(by));
  const said = newsOf(net, { ...OF, gap: 40 }).map(it => it.text).filter(it => /clock/.test(it));
  assert.equal(said.length, 2);
  // that their moments are old says nothing of them
  const texts = newsOf(net, { ...OF, gap: 40, isLongAgo: () => true }).map(it => it.text);
  assert.ok(texts.includes("nothing heard for over 30 min by RX1, RX2"), texts.join());
});

test("where no two clocks agree none is called right", () => {
  const lines = [];
  for (let k = 0; k < 5; k++)
    for (const [name, ahead] of [["A", 0], ["B", 3600], ["C", 10800]])
      lines.push(place(200 * k + ahead, "Q1A", 54, -3, { receivers: name, text: `no. ${k}` }));
  const texts = newsOf(netOfLines(lines), OF).map(it => it.text).filter(it => /clock/.test(it));
  assert.deepEqual(texts, ["the clocks of A and B are 60 min apart",
    "the clocks of A and C are 3 h apart", "the clocks of B and C are 2 h apart"]);
});
test("how far clocks are apart is said to the second, the minute or nearly so", () => {
  assert.deepEqual([0, 59, -60, 125, 3600, 3601, 7140, 7200, 7230, 19800, -172800, 191000.4]
    .map(apartText), ["0 s", "59 s", "1 min", "2 min 5 s", "60 min", "60 min 1 s", "1 h 59 min",
    "2 h", "2 h", "5 h 30 min", "2 d", "2 d 5 h"]);
  assert.equal(clockWords({ clock: { by: -5430, of: 9, from: [] } }, 30).text, "\u22121 h 30 min");
});
test("what is dated after now is said of its receivers, also where no other one heard it", () => {
  const net = netOfLines([place(0, "Q1A", 54, -3),
    place(7200, "Q1B", 54, -3, { receivers: "RX2" })]);
  const said = second => newsOf(net, { ...OF, now: Date.parse(moment(second)) / 1000 })
    .map(it => it.text).filter(it => /after now/.test(it));
  assert.deepEqual(said(7200), []);
  assert.deepEqual(said(3600), ["RX2 heard something 60 min after now: a clock there, or this " +
    "computer\u2019s, is wrong"]);
  assert.match(said(-600)[0], /^RX1, RX2 heard something 2 h 10 min after now/);
  // as long as it may be taken for now it is said to which moment ages count
  const ages = second => newsOf(net, { ...OF, now: Date.parse(moment(second)) / 1000,
    end: Date.parse(moment(7200)) / 1000 })
    .map(it => it.text).filter(it => /^ages/.test(it));
  assert.deepEqual([7200 + 600, 7200 + 86400, 7200 + 601].map(it => ages(it).join()), ["", "",
    "ages count to 20:00:00, 10 min 1 s ago, when something was last heard"]);
});
test("a clock is put right at one click and not twice, and of two by the one that is right", () => {
  const lines = [], put = 60, can = name => name !== "C";
  for (let k = 0; k < 5; k++)
    for (const [name, ahead] of [["A", 0], ["B", 3600]])
      lines.push(place(200 * k + ahead, "Q1A", 54, -3, { receivers: name, text: `no. ${k}` }));
  const [a, b] = netOfLines(lines).receivers.map(it => ({ name: it.name, clock: it.clock }));
  const ways = (it, was = 0) => waysFor(it, true, { shifted: () => was, can, put: () => {} });
  assert.deepEqual([ways(a), ways(b)],
    [[{ words: "put right by B", by: 3600 }], [{ words: "put right by A", by: -3600 }]]);
  const clock = { by: 3600, of: 9, from: [] };
  assert.deepEqual(ways({ name: "A", clock }, put),
    [{ words: "put right", by: put - 3600 }, { words: "leave as it was", by: 0 }]);
  assert.deepEqual(ways({ name: "C", clock }), []);
  assert.deepEqual(waysFor({ name: "A", clock }, false, { shifted: () => 0, can }), []);
});

test("of rows that were heard last at one moment the one that began later decides", () => {
  const heard = (source, from, text, receivers) =>
    row("status", from, source, { text, receivers })
      .replace(`${moment(from)}\tRX`, `${moment(9)}\tRX`);
  const lines = [heard("Q1A", 5, "late", "RX1"), heard("Q1A", 2, "early", "RX2"),
    heard("Q1B", 3, "one", "RX1"), heard("Q1B", 3, "other", "RX2"),
    heard("Q1C", 0, "said", "RX1"), row("raw", 9, "Q1C", { receivers: "RX3" })];
  const told = all => Object.fromEntries(netOfLines(all).things.map(it =>
    [it.name, [it.status, it.by.join(), it.sent, it.last - it.first]]));
  const { Q1A, Q1B, Q1C } = told(lines), turned = told([...lines].reverse());
  assert.deepEqual([Q1A, Q1B, Q1C], [["late", "RX1", 2, 7], ["other", "RX2", 2, 6],
    ["said", "RX3", 2, 9]]);
  // what began at one moment too counts as it stands in the table
  assert.deepEqual(turned, { Q1A, Q1B: ["one", "RX1", 2, 6], Q1C });
});
test("a receiver heard something last at its own moment, as far as a book tells it", () => {
  const lines = [row("status", 0, "Q1A", { receivers: "A,B,C", last: moment(5) }),
    row("status", 2, "Q1B", { receivers: "A" }),
    // by both, and last by the one that isn't the last of their names
    row("status", 9, "Q1B", { receivers: "D,E", receiver: "D", last: moment(30) })];
  const own = of => of.map(it => [it.name, it.last - Date.parse(moment(0)) / 1000]).sort();
  const all = [["A", 2], ["B", 0], ["C", 5], ["D", 30], ["E", 9]];
  assert.deepEqual(own(netOfLines(lines).receivers), all);
  // also of those that heard nothing in the part of the time that is shown
  const late = netOfLines(lines, [], { since: Date.parse(moment(6)) / 1000 });
  assert.deepEqual([own(late.receivers), own(late.whole.ears)], [all.slice(3), all]);
});
test("a net is the same in whatever order its table stands, also since a moment", () => {
  const lines = [];
  for (let k = 0; k < 7; k++)
    for (const [name, ahead] of [["C", 0], ["A", 3600], ["B", 10800]])
      lines.push(place(200 * k + ahead, `Q1${name}`, 54, -3, { receivers: name, via: "Q1D*" }),
        place(200 * k + ahead + 1, "Q1X", 54, -3, { receivers: name, text: `no. ${k}` }));
  const flat = it => [...it.counts].map(([key, of]) => [key, [...of].sort()]).sort();
  const told = all => [-Infinity, Date.UTC(2024, 5, 21, 18, 10) / 1000].map(since => {
    const { begin, end, things, receivers } = netOfLines(all, [], { since });
    const { heard, alone, repeated, sent } = atOnce(hearings(rowsOf(all), since));
    return { begin, end, receivers, things: things.map(it => [it.key, it.sent, it.first, it.last]),
      sent: [...sent].sort(), pairs: [heard, alone, repeated].map(flat) };
  });
  const [all, some] = told(lines);
  assert.deepEqual(told([...lines].reverse()), [all, some]);
  assert.deepEqual(all.receivers[2].clock.from.map(it => it.b), ["A", "B"]);
  assert.deepEqual([all, some].map(it => it.receivers.map(one => [one.name, one.heard])),
    [[["A", 14], ["B", 14], ["C", 14]], [["A", 14], ["B", 14], ["C", 8]]]);
  assert.equal(new Map(some.sent).get("Q1C"), 4);
});
test("a name of the roster stands wherever a station is in need", () => {
  const net = netOfLines([micE(0, "Q1A-7", "emergency")]), settings = settingsFor(LEADER);
  assert.equal(needsOf(net.things, { ...OF, settings })[0].text,
    "EMERGENCY: Leader (Q1A-7), 18:00:00");
  const missingText = missing => newsOf(net, { ...OF, missing, expected: 5, settings })
    .map(it => it.text).find(it => / expected /.test(it));
  assert.equal(missingText([]), "0 of 5 expected not heard");
  assert.equal(missingText(["Q1A-1", "Q1B", "Q1C", "Q1D"]),
    "4 of 5 expected not heard for 30 min: Leader (Q1A-1), Q1B, Q1C, and 1 more");
});

test("weather and telemetry without a place are kept for their station", () => {
  const net = netOfLines([row("weather", 0, "Q1W", { wind_mph: 4 }),
    row("telemetry", 1, "Q1W", { a1: 199, bits: "01101001" })]);
  assert.equal(thing(net, "Q1W").lastWeather, 0);
  assert.equal(thing(net, "Q1W").lastTelemetry, 1);
});
test("a kill at 0, 0 is a kill, where the thing was", () => {
  const of = (second, name, state, north, east) => row("object", second, "Q1A", { name, state,
    latitude: String(north), longitude: String(east), symbol: "/E" });
  const lines = [of(0, "X", "live", 54, -3), of(9, "X", "killed", 0, 0), of(0, "Y", "killed", 0, 0),
    of(0, "Z", "live", 5, 6), of(1, "Z", "killed", 0, 0), of(2, "Z", "live", 7, 8)];
  const net = netOfLines(lines), it = thing(net, "X"), again = thing(net, "Z");
  assert.deepEqual([it.killed, it.now.state, it.now.north, it.now.east], [true, "killed", 54, -3]);
  assert.deepEqual([it.unfixed, thing(net, "Y").unfixed, thing(net, "Y").now], [0, 1, null]);
  assert.equal(it.at(lines.length ? it.first + 1 : 0).state, "live");
  assert.deepEqual([again.killed, again.placedBy.map(k => again.rows.north[k])],
    [false, [5, 5, 7]]);
  // also where the table begins with the kill
  const turned = thing(netOfLines([lines[1], lines[0]]), "X");
  assert.deepEqual([turned.now.state, turned.now.north, turned.unfixed], ["killed", 54, 0]);
});
test("a message has its first and its last moment, and an item its own place", () => {
  const [it] = readMessages(messageTable([message("Q1A", "Q1B", "?", "unanswered", 0,
    { last: moment(90) })]));
  assert.equal(it.last - it.first, 90);
  const net = netOfLines([place(0, "Q1NET", 54, -3), row("item", 60, "Q1NET", { name: "Water",
    state: "live", latitude: "54.5000000", longitude: "-3.5000000", ambiguity: 0,
    compressed: "no", symbol: "/>" })]);
  assert.deepEqual(net.placed.map(one => [one.kind, one.name, one.now.north]),
    [["station", "Q1NET", 54], ["item", "Water", 54.5]]);
});
