import assert from "node:assert/strict";
import { test } from "node:test";
import { entriesOf } from "../../page/src/net/log-entries.js";
import { fieldOf, momentIn, sheetsOf } from "../../page/src/ics309/sheets.js";
import { linesIn, OwnLines } from "../../page/src/ics309/own-lines.js";
import { Names } from "../../page/src/net/roster.js";
import { message, moment, netOfLines, savedText } from "./tables.js";

const AT = Date.UTC(2024, 5, 21, 18) / 1000;
const own = (second, text, fields = {}) => ({ at: AT + second, from: "Net", to: "CP1", id: "", text,
  ...fields });
/** A store as a browser has it; it may be full. */
class Store {
  constructor(isFull = false) {
    this.isFull = isFull;
    this.by = new Map();
  }
  getItem(key) {
    return this.by.get(key) ?? null;
  }
  setItem(key, value) {
    if (this.isFull) throw new Error("QuotaExceededError");
    this.by.set(key, value);
  }
}
const opened = (store, given = [], title = "Race") => {
  const lines = new OwnLines(store);
  lines.open(title, given);
  return lines;
};
const textsOf = lines => lines.lines.map(it => it.text);

test("the log has messages, bulletins and own lines by time, each with a number", () => {
  const net = netOfLines([], [message("Q1A", "Q1B", "hi", "acknowledged", 5, { id: "7" }),
    message("Q1A", "BLN1", "all", "unnumbered", 4)]);
  assert.deepEqual(entriesOf(net, [own(4.5, "by voice")]).map(it =>
    [it.number, it.id, it.text, it.note]),
  [[1, "", "all", ""], [2, "", "by voice", ""], [3, "7", "hi", "acknowledged"]]);
  const lines = [own(4.5, "\\x41=1")];
  assert.equal(savedText("messages (CSV)", net, {}, { lines }).split("\n")[2],
    `${moment(4.5)},Net,,CP1,\\x41=1,own`);
});
test("a log goes on over sheets, a long text takes more room, and one is of nothing", () => {
  const net = netOfLines([]), many = (n, text) => sheetsOf(entriesOf(net,
    Array.from({ length: n }, (_, k) => own(k, text))), new Names([]));
  assert.equal(many(0, "").length, 1);
  assert.equal(many(26, "short").length, 1);
  const short = many(100, "short"), long = many(100, "long ".repeat(40));
  assert.ok(short.length < long.length);
  assert.deepEqual(short.flat().map(it => it.number), Array.from({ length: 100 }, (_, k) => k + 1));
  // one that no sheet holds has one to itself
  assert.deepEqual(many(2, "x".repeat(5000)).map(it => it.length), [1, 1]);
});
test("own lines outlive the page, and belong to one net", () => {
  const store = new Store(), lines = opened(store);
  assert.equal(lines.add(own(2, "b"), own(1, "a")), true);
  assert.deepEqual(textsOf(opened(store)), ["a", "b"]);
  assert.deepEqual(textsOf(opened(store, [], "Other")), []);
  lines.remove(own(1, "a"));
  assert.deepEqual(textsOf(opened(store)), ["b"]);
});
test("lines in a page of an event are there too, once, and can be taken away", () => {
  const store = new Store(), lines = opened(store, [own(1, "a"), own(2, "b")]);
  lines.add(own(2, "b"), own(3, "c"));
  assert.deepEqual(textsOf(lines), ["a", "b", "c"]);
  lines.remove(own(2, "b"));
  assert.deepEqual(textsOf(opened(store, [own(1, "a"), own(2, "b")])), ["a", "c"]);
  lines.add(own(2, "b"));
  assert.deepEqual(textsOf(lines), ["a", "b", "c"]);
});
test("a net that gets another title takes its lines along, but not into another net", () => {
  const store = new Store(), lines = opened(store, [], "aprsbook");
  lines.offer("a.html", [own(1, "a")]);
  lines.answer("a.html", true);
  lines.open("Race");
  assert.deepEqual(textsOf(opened(store)), ["a"]);
  opened(store, [], "Other").add(own(2, "b"));
  lines.add(own(3, "c"));
  lines.open("Other");
  // what was dropped here comes along all the same
  assert.deepEqual(textsOf(lines), ["a", "b"]);
});
test("a page may bring very many lines", () => {
  const lines = opened(new Store()), many = Array.from({ length: 200000 }, (_, k) => own(k, "a"));
  lines.offer("a.html", many);
  assert.deepEqual([lines.lines.length, lines.answer("a.html", true)], [0, true]);
  assert.equal(lines.lines.length, many.length);
});
test("the lines of another page are asked for, stand under its name, and go all at once", () => {
  const store = new Store(), lines = opened(store, [own(5, "in the page")]);
  lines.add(own(1, "mine"));
  lines.offer("27.html", [own(2, "theirs"), own(3, "of a desk", { desk: "AID" })]);
  lines.offer("28.html", [own(4, "never")]);
  assert.deepEqual(textsOf(lines), ["mine", "in the page"]);
  lines.answer("27.html", true);
  lines.answer("28.html", false);
  assert.deepEqual([lines.desks, lines.offered.size],
    [[["", 1], ["27.html", 1], ["AID", 1], ["this page", 1]], 0]);
  const net = netOfLines([]), entries = entriesOf(net, lines.lines);
  assert.deepEqual(entries.map(it => [it.state, it.note]), [["own", ""],
    ["of 27.html", "of 27.html"], ["of AID", "of AID"], ["of this page", "of this page"]]);
  // what is kept knows it too, and so does a page that carries them
  assert.deepEqual(opened(store).desks, [["", 1], ["27.html", 1], ["AID", 1]]);
  assert.deepEqual(lines.carried.map(it => it.desk), [undefined, "27.html", "AID", undefined]);
  lines.removeDesk("27.html");
  lines.removeDesk("this page");
  assert.deepEqual(textsOf(lines), ["mine", "of a desk"]);
  assert.deepEqual(textsOf(opened(store, [own(5, "in the page")])), ["mine", "of a desk"]);
});
test("lines of other days that a page has are counted", () => {
  const lines = new OwnLines(new Store());
  lines.open("Race", [own(0, "then"), own(9e5, "later")], { begin: AT, end: AT + 60 });
  assert.deepEqual([lines.ofOtherDays, lines.others], [1, 0]);
});
test("two windows of one net lose nothing of each other", () => {
  const store = new Store(), one = opened(store), two = opened(store);
  one.add(own(1, "a"));
  two.add(own(2, "b"));
  one.add(own(3, "c"));
  assert.deepEqual(textsOf(opened(store)), ["a", "b", "c"]);
  two.remove(own(1, "a"));
  one.add(own(4, "d"));
  assert.deepEqual(textsOf(opened(store)), ["b", "c", "d"]);
});
test("without a store, with a full or a damaged one, lines stay in the page", () => {
  for (const store of [null, new Store(true)]) {
    const lines = opened(store, [own(1, "a")]);
    assert.equal(lines.isAtRisk, false);
    assert.equal(lines.add(own(2, "b")), false);
    assert.equal(lines.isAtRisk, true);
    assert.deepEqual(textsOf(lines), ["a", "b"]);
    // the page is drawn again, as for each new log
    lines.open("Race", [own(1, "a")]);
    assert.deepEqual(textsOf(lines), ["a", "b"]);
    lines.remove(own(1, "a"));
    lines.open("Race", [own(1, "a")]);
    assert.deepEqual(textsOf(lines), ["b"]);
    lines.open("Other");
    lines.open("Other");
    assert.deepEqual(textsOf(lines), ["b"]);
  }
  const store = new Store(true), lines = opened(store);
  lines.add(own(1, "a"));
  store.isFull = false;
  // another window had room
  opened(store).add(own(2, "b"));
  lines.open("Race");
  assert.deepEqual(textsOf(lines), ["a", "b"]);
  lines.add(own(3, "c"));
  assert.deepEqual(textsOf(opened(store)), ["a", "b", "c"]);
  for (const text of ["{", "null", "7", "{\"lines\":7,\"gone\":{}}",
    "{\"lines\":[null,{\"at\":\"1\"}]}"]) {
    const store = new Store();
    store.setItem("aprsbook lines: Race", text);
    const lines = opened(store);
    assert.deepEqual(textsOf(lines), []);
    lines.add(own(1, "a"));
    assert.deepEqual(textsOf(opened(store)), ["a"]);
  }
  assert.deepEqual(linesIn([own(1, "x".repeat(2001)), own(2, "b", { more: 1 })]), [own(2, "b")]);
  // a moment that no date has would stop the whole form
  for (const at of [1e300, -8.7e12, NaN, "1", null])
    assert.deepEqual(linesIn([own(0, "a", { at }), own(2, "b")]), [own(2, "b")]);
});
test("lines of last week's net of the same title are left out, and counted", () => {
  const store = new Store(), week = 7 * 86400, span = { begin: AT + week, end: AT + week + 3600 };
  opened(store).add(own(0, "then"), own(week - 86400, "before"), own(week + 3600 + 86401, "after"));
  const lines = new OwnLines(store);
  lines.open("Race", [], span);
  assert.deepEqual([textsOf(lines), lines.others], [["before"], 2]);
  // what is added in this page, or stands in it, is of this net
  lines.add(own(1, "today"));
  lines.open("Race", [own(2, "given")], span);
  assert.deepEqual([textsOf(lines), lines.others], [["today", "given", "before"], 2]);
  // nothing is lost: it is there in the net of then
  lines.open("Race", [], { begin: AT, end: AT + 3600 });
  assert.ok(textsOf(lines).includes("then"));
  assert.deepEqual(JSON.parse(store.getItem("aprsbook lines: Race")).lines.length, 4);
});
test("a field for date and time gives back its moment", () => {
  for (const local of [false, true]) {
    assert.equal(momentIn(fieldOf(AT, { local }), { local }), AT);
    assert.ok(Number.isNaN(momentIn("", { local })));
  }
  assert.equal(fieldOf(AT, { local: false }), "2024-06-21T18:00:00");
});
