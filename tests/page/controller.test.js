// A page in the hands of who leads a net: what is urgent, what leads where, and the form.
import assert from "node:assert/strict";
import { test } from "node:test";
import { byId, enter, IN_VIEW, open, skip, textsOf, until } from "./window.js";
import { message, messageTable, place, row, table } from "./tables.js";
import { Journal } from "../../page/src/desks/journal.js";

/** The net goes on: its last transmission was heard a minute ago. */
const FROM = Math.round(Date.now() / 1000) - 7260 - Date.UTC(2024, 5, 21, 18) / 1000;
const at = second => FROM + second;
const rowsFor = lines => table([place(at(0), "Q1OLD", 54.5, -3.5),
  place(at(0), "Q1HOME", 54.5, -3.4), place(at(7200), "Q1NET", 54.6, -3.5), ...lines]);
const sos = second => row("mic-e", at(second), "Q1SOS",
  { latitude: 54.55, longitude: -3.6, symbol: "/a", says: "emergency" });
const DATA = { title: "Live", gap: 30, silent: 30, live: 0, maps: [], roster: "", notes: [],
  lines: [{ at: 1.7e9, from: "a", to: "b", id: "", text: "of long ago" }], rows: rowsFor([]),
  messages: messageTable([message("Q1OLD", "Q1NET", "ride 7 down", "unanswered", at(10),
    { id: "1", gate: "Q1GATE" }), message("Q1NET", "Q1OLD", "medics", "rejected", at(20),
    { id: "2" })]) };

if (!skip) open(DATA);
const { dataIn } = skip ? {} : await import("../../page/src/app/state.js");
const { page, show } = skip ? {} : await import("../../page/src/main-event.js")
  .then(() => globalThis.aprsbook);
if (!skip) await until(() => document.querySelector("#timeline tbody tr"));
const button = (box, words) => [...document.querySelectorAll(`${box} button`)]
  .find(it => it.textContent === words);
const newsOf = word => textsOf("#news > *").find(it => it.includes(word));

test("silent stations are led to, and who went home is taken off", { skip }, async () => {
  assert.ok(newsOf("2 stations silent"));
  [...document.querySelectorAll("#news > *")].find(it => /silent/.test(it.textContent)).click();
  await until(() => byId("kind").value === "silent");
  assert.deepEqual(textsOf("#things tbody th").sort(), ["Q1HOME", "Q1OLD"]);
  [...document.querySelectorAll("#things .pick")].find(it => it.textContent === "Q1HOME").click();
  button("#one-about", "went home").click();
  assert.ok(newsOf("1 station silent"));
  assert.deepEqual(textsOf("#things tbody th"), ["Q1OLD"]);
  assert.match(byId("one-about").textContent, /awaited went home \([^)]+\) take back/);
  // it outlives the page
  assert.match(localStorage.getItem("aprsbook marks: Live"), /"alarm":"home Q1HOME"/);
  button("#one-about", "take back").click();
  assert.ok(newsOf("2 stations silent"));
  byId("one-close").click();
  enter("kind", "");
});
test("a call in a message leads to its place", { skip }, async () => {
  const [first] = document.querySelectorAll("#messages tbody tr");
  assert.equal(first.querySelector(".from").textContent, "Q1OLD by Q1GATE");
  first.querySelector(".from .pick").click();
  await until(() => page.picked);
  assert.equal(page.picked, "station Q1OLD");
  byId("one-close").click();
});
test("where a mark is set the list stays as it is, with the keyboard in its row", { skip }, () => {
  const keyNow = () => document.activeElement.closest("tr")?.dataset.key;
  [...document.querySelectorAll("#things .pick")].find(it => it.textContent === "Q1OLD").focus();
  assert.equal(keyNow(), "station Q1OLD");
  page.marks.add("dealt", { alarm: "silent of another one", note: "" });
  assert.equal(keyNow(), "station Q1OLD");
});
test("a message is marked as dealt with, by all its lists", { skip }, () => {
  button("#messages", "dealt with").click();
  assert.ok(newsOf("0 messages unanswered"));
  const rows = [...document.querySelectorAll("#messages tbody tr")];
  assert.deepEqual(rows.map(it => it.className), ["rejected", "dealt"]);
  assert.match(rows[1].querySelector(".text").textContent, /^ride 7 down dealt with \(.+\)/);
  button("#messages", "take back").click();
  assert.ok(newsOf("1 message unanswered"));
});
const wordsNow = () => document.activeElement.getAttribute("aria-label") || "";
/** Presses a button by its words, and gives what has the keyboard then, as it is called. */
const press = (box, words) => {
  button(box, words).focus();
  document.activeElement.click();
  return wordsNow();
};
const RIDE = "message from Q1OLD to Q1NET, ride 7 down";
const MEDICS = "message from Q1NET to Q1OLD, medics";
test("where a message is dealt with the keyboard goes to the next one, and at last to the list",
  { skip }, () => {
    assert.equal(press("#messages", "dealt with"), `dealt with: ${MEDICS}`);
    document.activeElement.click();
    assert.equal(document.activeElement, byId("messages"));
    assert.deepEqual(textsOf("#messages tbody .deal"), ["take back", "take back"]);
    // what is taken back keeps it
    assert.equal(press("#messages", "take back"), `dealt with: ${MEDICS}`);
    assert.equal(press("#messages", "take back"), `dealt with: ${RIDE}`);
    // behind the last one there is that before it
    [...document.querySelectorAll("#messages .deal")].at(-1).focus();
    assert.equal(wordsNow(), `dealt with: ${MEDICS}`);
    document.activeElement.click();
    assert.equal(wordsNow(), `dealt with: ${RIDE}`);
    button("#messages", "take back").click();
  });
test("a key that is held down deals with no other message", { skip }, () => {
  const pressed = repeat => button("#messages", "dealt with").dispatchEvent(
    new KeyboardEvent("keydown", { key: "Enter", repeat, bubbles: true, cancelable: true }));
  assert.deepEqual([pressed(false), pressed(true)], [true, false]);
});
test("what is marked in another tab is marked in this one at once", { skip }, () => {
  const { key } = page.marks, tab = new Journal("", async () => null, localStorage, Date.now, key);
  const alarm = button("#messages", "dealt with").dataset.alarm;
  const hear = () => dispatchEvent(new globalThis.window.StorageEvent("storage", { key }));
  const id = tab.add("dealt", { alarm, note: "" });
  assert.ok(newsOf("1 message unanswered"));
  hear();
  assert.ok(newsOf("0 messages unanswered"));
  tab.remove(id);
  hear();
  assert.ok(newsOf("1 message unanswered"));
});
test("a net that gets another title takes its marks along, but for those before it", { skip },
  async () => {
    const showAs = title => show(dataIn(JSON.stringify({ ...DATA, title })));
    const old = new Journal("", async () => null, null, () => 1.7e12);
    old.add("dealt", { alarm: "home Q1OLD", note: "" });
    page.marks.unite([...old.entries.keys()].join("\n"));
    button("#messages", "dealt with").click();
    assert.ok(newsOf("0 messages unanswered") && newsOf("1 station silent"));
    await showAs("Fell race");
    assert.ok(newsOf("0 messages unanswered") && newsOf("2 stations silent"));
    assert.match(localStorage.getItem("aprsbook marks: Fell race"), /"alarm":"message Q1OLD/);
    await showAs("Live");
    button("#messages", "take back").click();
    // marks that a title has already stay as they are
    await showAs("Fell race");
    assert.ok(newsOf("0 messages unanswered"));
    await showAs("Live");
    assert.ok(newsOf("1 message unanswered"));
  });
test("where a mark is set in the panel or taken back the keyboard stays with it", { skip }, () => {
  [...document.querySelectorAll("#things .pick")].find(it => it.textContent === "Q1HOME").click();
  assert.equal(press("#one-about", "went home"), "take back: Q1HOME");
  assert.equal(press("#one-about", "take back"), "went home: Q1HOME");
});
test("where the browser keeps no marks the page says so, and asks before it is left", { skip },
  () => {
    const { prototype } = globalThis.window.Storage, { setItem } = prototype;
    const leave = () => !globalThis.window.dispatchEvent(
      new Event("beforeunload", { cancelable: true }));
    assert.deepEqual([byId("told").textContent, leave()], ["", false]);
    prototype.setItem = () => { throw new Error("it is full"); };
    button("#messages", "dealt with").click();
    prototype.setItem = setItem;
    assert.equal(byId("told").textContent,
      "This browser keeps no marks: save the page of the event, which has them.");
    assert.equal(leave(), true);
    // where there is room again they are kept
    button("#messages", "take back").click();
    assert.deepEqual([byId("told").textContent, leave()], ["", false]);
  });
test("what is closed gives the keyboard to its row, or to the map", { skip }, async () => {
  const close = () => {
    byId("one-close").focus();
    byId("one-close").click();
    return document.activeElement.textContent;
  };
  assert.deepEqual([page.picked, close()], ["station Q1HOME", "Q1HOME"]);
  [...document.querySelectorAll("#things .pick")].find(it => it.textContent === "Q1HOME").click();
  enter("find", "Q1NET", "input");
  await until(() => textsOf("#things tbody th").join() === "Q1NET");
  close();
  assert.equal(document.activeElement, byId("map"));
  enter("find", "", "input");
});
test("one's own call stands first", { skip }, () => {
  enter("call", " q1old ");
  assert.deepEqual([byId("call").value, newsOf("unanswered")],
    ["Q1OLD", "1 message unanswered, 1 of Q1OLD"]);
  assert.deepEqual(textsOf("#messages tbody .text bdi"), ["medics", "ride 7 down"]);
  enter("call", "");
});
test("distances are told from a fixed place, or from what was heard", { skip }, () => {
  const facts = () => byId("one-about").textContent;
  [...document.querySelectorAll("#things .pick")].find(it => it.textContent === "Q1NET").click();
  enter("origin", "54.5, -3.5");
  assert.match(facts(), /from 54\.5, -3\.511\.1 km, 0\u00b0/);
  enter("origin", "Q1HOME");
  assert.match(facts(), /from Q1HOME1\d\.\d km, 3\d\d\u00b0/);
  enter("origin", "nowhere");
  assert.ok(byId("origin").validationMessage && !/from nowhere/.test(facts()));
  byId("one-origin").click();
  assert.deepEqual([byId("origin").value, byId("origin").validationMessage], ["Q1NET", ""]);
  enter("origin", "");
});
test("a station goes on under another call, and is silent no more", { skip }, () => {
  [...document.querySelectorAll("#things .pick")].find(it => it.textContent === "Q1OLD").click();
  byId("other-call").value = "q1net";
  byId("other-call-set").click();
  assert.match(byId("one-about").textContent, /goes on asQ1NET /);
  assert.ok(newsOf("1 station silent"));
  button("#one-about", "take back").click();
  byId("one-close").click();
});
test("checkpoints that are brought have passing times, and go along", { skip }, async () => {
  const { bring, takeAllAway } = await import("../../page/src/app/add-layer.js");
  await bring("points.txt", "Finish 54.6 -3.5 100\nTop 10 10 10\n");
  assert.equal(byId("told").textContent, "points.txt: 2 checkpoints");
  await until(() => document.querySelector("#passed tbody tr"));
  assert.deepEqual([byId("passes").hidden, textsOf("#passed thead th"), textsOf("#passed tbody th"),
    textsOf("#visits tbody th")],
  [false, ["no.", "name", "Finish", "Top"], ["Q1NET"], ["Finish"]]);
  assert.match(byId("passed-told").textContent, /^Nobody passed Top: /);
  await bring("bad.txt", "Finish 54.6 -3.5 100\nTop 10 x 10\n");
  assert.match(byId("told").textContent, /^bad\.txt: line 2 is no checkpoint, such as/);
  takeAllAway();
  assert.equal(byId("passes").hidden, true);
});
test("an emergency that comes while the form is open stands above it", { skip }, async () => {
  byId("ics-open").click();
  assert.deepEqual([byId("urgent").hidden, byId("needs").textContent], [true, ""]);
  await show(dataIn(JSON.stringify({ ...DATA, rows: rowsFor([sos(7210)]) })));
  assert.deepEqual(textsOf("#urgent a").map(it => it.slice(0, 16)), ["EMERGENCY: Q1SOS"]);
  assert.match(byId("needs").textContent, /^EMERGENCY: Q1SOS/);
  // neither is in a part that the form hides
  for (const id of ["urgent", "needs"])
    assert.equal(byId(id).closest("header, main, footer, .files"), null);
  // what was looked for stays so where it is among that
  byId("find").value = page.choices.find = "sos";
  byId("find").dispatchEvent(new Event("input"));
  byId("urgent").querySelector("a").click();
  await until(() => page.picked);
  assert.deepEqual([byId("find").value, page.choices.find], ["sos", "sos"]);
  enter("find", "", "input");
  assert.deepEqual([byId("ics").hidden, page.picked], [true, "station Q1SOS"]);
  button("#urgent", "dealt with").click();
  assert.equal(byId("urgent").hidden, true);
  assert.match(newsOf("Q1SOS"), /dealt with/);
});
test("a line of one's own has now as its time, which goes on until it is begun", { skip }, () => {
  byId("ics-open").click();
  const now = () => Math.abs(Date.parse(byId("own-at").value + "Z") - Date.now()) < 3000;
  assert.ok(now());
  const { form } = page.widgets;
  byId("own-at").value = "2024-06-21T18:00:07";
  form.goOn();
  assert.ok(now());
  byId("own-text").value = "rider 7";
  byId("own-at").value = "2024-06-21T18:00:07";
  form.goOn();
  assert.match(byId("own-at").value, /^2024-06-21T18:00:07/);
  byId("own-add").click();
  assert.ok(now());
  enter("own-at", "2024-06-21T18:00:07", "input");
  form.goOn();
  assert.match(byId("own-at").value, /^2024-06-21T18:00:07/);
});
test("what another window of this net adds is in the form, and of another net nothing", { skip },
  () => {
    const { own } = page, text = "written in the other window";
    const hear = key => dispatchEvent(new window.StorageEvent("storage", { key }));
    const kept = JSON.parse(localStorage.getItem(own.key) || "null");
    const has = () => own.lines.some(it => it.text === text);
    const line = { at: Math.round(Date.now() / 1000), from: "A", to: "B", id: "", text };
    localStorage.setItem(own.key, JSON.stringify({ ...kept, lines: [...kept?.lines || [], line] }));
    hear("aprsbook lines of another net");
    assert.equal(has(), false);
    hear(own.key);
    assert.equal(has(), true);
    own.remove(own.lines.find(it => it.text === text));
    page.widgets.form.draw();
  });
test("whose lines there are is said, and they go at once after a question", { skip }, () => {
  const desks = () => textsOf("#own-desks li");
  assert.deepEqual(desks(),
    ["1 line of your own take all away", "1 line of this page take all away"]);
  assert.match(byId("own-told").textContent, /More than a day off, and shown: 2 lines/);
  page.own.offer("27.html", [{ at: 5, from: "", to: "", id: "", text: "theirs" }]);
  page.widgets.form.draw();
  button("#own-desks", "take them").click();
  assert.equal(desks().length, 3);
  assert.deepEqual([...document.querySelectorAll("#ics-sheets .own")].map(it => it.className)
    .sort(), ["own", "own of-desk", "own of-desk"]);
  const last = byId("own-desks").lastChild;
  assert.match(last.textContent, /this page/);
  last.querySelector("button").click();
  assert.equal(last.textContent, "take 1 line of this page away? yes no");
  last.querySelectorAll("button")[1].click();
  assert.equal(page.own.lines.length, 3);
  last.querySelector("button").click();
  last.querySelector("button").click();
  assert.deepEqual(desks(),
    ["1 line of your own take all away", "1 line of 27.html take all away"]);
});
test("of thousands of lines those are there that are in view, or on paper", { skip }, () => {
  // of texts so long a sheet has three
  const lines = Array.from({ length: 3000 }, (_, k) =>
    ({ at: at(k) + 1.7e9, from: "a", to: "b", id: "", text: `no. ${k} `.padEnd(560, ".") }));
  page.own.offer("many.html", lines);
  page.own.answer("many.html", true);
  page.widgets.form.draw();
  const sheets = [...byId("ics-sheets").children];
  const filled = () => sheets.filter(it => it.firstChild).length;
  assert.ok(sheets.length > 800);
  assert.equal(filled(), IN_VIEW);
  assert.match(sheets[5].style.minHeight, /^\d+pt$/);
  dispatchEvent(new Event("beforeprint"));
  assert.equal(filled(), 200);
  assert.match(byId("ics-rest").textContent, /^and 2,\d{3} lines more/);
});
