import assert from "node:assert/strict";
import { test } from "node:test";
import { element } from "./document.js";
import { make } from "../../page/src/util/dom.js";
import { List } from "../../page/src/lists/table-view.js";
import { placeList } from "../../page/src/lists/detail-panel.js";
import { runAllWaiting } from "../../page/src/util/task-queue.js";
import { netOfLines, place, thing, SETTINGS } from "./tables.js";

test("of a station's many places those are read that are shown", () => {
  const lines = Array.from({ length: 3000 }, (_, k) =>
    place(k, "Q1A", 54 + k / 1e4, -3, { text: `no. ${k}`, receivers: `RX${k % 2}` }));
  const { rows, placedBy } = thing(netOfLines(lines), "Q1A"), box = element();
  const own = rows.placeOf, read = [];
  rows.placeOf = k => {
    read.push(k);
    return own.call(rows, k);
  };
  const list = placeList(box, { rows, settings: SETTINGS });
  list.show([...placedBy].reverse());
  runAllWaiting();
  assert.equal(list.body.children.length, 26);
  assert.match(list.body.children[0].textContent, /^18:49:59.*54\.2999, -3\.0000.*no\. 2999RX1$/);
  assert.equal(read.length, 26);
  list.turn(0);
  assert.equal(list.order.down, true);
  list.turn(0);
  runAllWaiting();
  assert.match(list.body.children[0].textContent, /^18:00:00.*no\. 0RX0$/);
  assert.ok(read.length < 100);
});

const names = n => Array.from({ length: n }, (_, k) => `Q1A-${k}`);
/** A list of names, each of which can be picked. */
const nameList = box => new List(box, { id: "names", caption: "names", keyOf: it => it,
  columns: [{ title: "name", value: it => it }],
  row: it => make("tr", { data: { key: it } },
    make("td", {}, make("button", { className: "pick", textContent: it }))) });
function scroll(box, top, high = 1e5) {
  Object.assign(box, { scrollTop: top, scrollHeight: high });
  box.onscroll();
}
const pickOf = (list, key) => list.body.rows.find(it => it.dataset.key === key)
  ?.querySelector(".pick");

test("another drawing leaves in view what is, and the keyboard in its row", () => {
  for (const many of [100, 3000]) {
    const list = nameList(element()), { box, body } = list;
    list.show(names(many));
    runAllWaiting();
    assert.equal(body.children.length, 26);
    // all rows, and the head
    assert.equal(list.table.getAttribute("aria-rowcount"), String(many + 1));
    scroll(box, 900);
    list.build(44);
    pickOf(list, "Q1A-69").focus();
    list.show(["Q1B", ...names(many)], true);
    runAllWaiting();
    assert.deepEqual([box.scrollTop, body.children.length], [900, 71]);
    assert.equal(document.activeElement, pickOf(list, "Q1A-69"));
    assert.equal(body.children[0].dataset.key, "Q1B");
    // one who went on isn't called back, and a row that is gone has nothing
    const other = element();
    other.focus();
    list.show(names(many), true);
    runAllWaiting();
    assert.equal(document.activeElement, other);
    pickOf(list, "Q1A-3").focus();
    list.show(["Q1B", "Q1C"], true);
    runAllWaiting();
    assert.deepEqual([document.activeElement, body.children.length], [document.body, 2]);
  }
});
test("another drawing leaves the keyboard with that button of its row that had it", () => {
  const list = nameList(element()), { row } = list;
  list.row = it => {
    const node = row(it);
    node.append(make("td", {}, make("button", { textContent: "dealt with" })));
    return node;
  };
  list.show(names(9));
  list.body.rows[4].querySelectorAll("button")[1].focus();
  list.show(["Q1B", ...names(9)], true);
  assert.equal(document.activeElement, list.body.rows[5].querySelectorAll("button")[1]);
  list.row = row;
  list.show(names(9), true);
  assert.equal(document.activeElement, pickOf(list, "Q1A-4"));
});
test("what is sorted or sought is shown from its first row on", () => {
  const list = nameList(element()), { box, body } = list;
  list.show(names(100));
  scroll(box, 900);
  list.build(44);
  list.turn(0);
  assert.deepEqual([box.scrollTop, body.children.length], [0, 26]);
  scroll(box, 900);
  list.show(names(50));
  assert.deepEqual([box.scrollTop, body.children.length], [0, 26]);
});
test("the arrow keys go on where the rows that are built end", () => {
  const list = nameList(element());
  list.show(names(100));
  const press = (key, pick) => list.body.dispatchEvent({ type: "keydown", key, target: pick,
    preventDefault() {} });
  const last = list.body.rows.at(-1).querySelector(".pick"), { length } = list.body.rows;
  last.focus();
  press("ArrowDown", last);
  press("ArrowDown", last);
  assert.ok(length < 100);
  assert.equal(document.activeElement, list.body.rows[length].querySelector(".pick"));
});
test("the keys for the end and the begin reach the last row and the first, built or not", () => {
  const list = nameList(element()), reached = key => {
    const target = document.activeElement;
    list.body.dispatchEvent({ type: "keydown", key, target, preventDefault() {} });
    return [document.activeElement === pickOf(list, "Q1A-0"),
      document.activeElement === pickOf(list, "Q1A-99"), list.body.rows.length];
  };
  list.show(names(100));
  // so high that nothing more has to be built
  scroll(list.box, 0);
  list.body.rows[3].querySelector(".pick").focus();
  assert.deepEqual(reached("Home"), [true, false, 26]);
  assert.deepEqual(reached("ArrowDown"), [false, false, 26]);
  assert.deepEqual(reached("End"), [false, true, 100]);
  assert.deepEqual(reached("Home"), [true, false, 100]);
});
test("texts are sorted by the numbers in them", () => {
  const list = nameList(element());
  list.show(["Q1A-10", "Q1A-2", "Q1A-1"]);
  list.turn(0);
  assert.deepEqual(list.body.rows.map(it => it.dataset.key), ["Q1A-10", "Q1A-2", "Q1A-1"]);
});
test("a list that is made anew stands where that before it in its box stood", () => {
  for (const many of [100, 3000]) {
    const box = element(), before = nameList(box);
    before.show(names(many));
    runAllWaiting();
    scroll(box, 900);
    before.build(44);
    const list = nameList(box);
    list.show(names(many));
    assert.deepEqual([box.scrollTop, list.body.children.length], [900, 70]);
    runAllWaiting();
    assert.deepEqual([box.children[0], list.body.children.length], [list.table, 70]);
    // what is scrolled from now on is the new one
    scroll(box, 900, 1300);
    assert.deepEqual([before.built, list.built], [70, many]);
  }
});
test("of what can be picked it is said whether it is", () => {
  const list = nameList(element()), { row } = list;
  const pressed = () => list.body.rows.filter(it =>
    it.querySelector(".pick").getAttribute("aria-pressed") === "true").map(it => it.dataset.key);
  list.row = it => Object.assign(row(it), { className: it === "Q1A-2" ? "station picked" : "" });
  list.show(names(9));
  assert.deepEqual(pressed(), ["Q1A-2"]);
  list.mark("Q1A-5");
  assert.deepEqual(pressed(), ["Q1A-5"]);
  list.mark(null);
  assert.deepEqual(pressed(), []);
});
