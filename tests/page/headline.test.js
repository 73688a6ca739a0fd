import assert from "node:assert/strict";
import { test } from "node:test";
import "./document.js";
import { drawAbout, drawNews, partText } from "../../page/src/app/header.js";
import { page } from "../../page/src/app/state.js";
import { message, netOfLines, place, row, SETTINGS } from "./tables.js";

const news = document.getElementById("news");
/** A page of these rows and messages. */
function take(lines, messages = []) {
  const net = netOfLines(lines, messages), [{ rows }] = net.things;
  page.shown = { net, all: { rows, end: rows.until },
    data: { silent: 30, gap: 30, live: 0, notes: [] } };
}
const ask = (source, second) => message(source, "Q1B", "x", "unanswered", second, { id: second });

test("who has the keyboard in the news keeps it, also where there is one message more", () => {
  take([place(0, "Q1A", 54, -3)], [ask("Q1A", 1)]);
  drawNews();
  const link = text => news.children.find(it => it.textContent === text);
  link("0 stations silent for over 30 min").focus();
  take([place(0, "Q1A", 54, -3), place(4000, "Q1B", 54, -3)], [ask("Q1A", 1), ask("Q1A", 2)]);
  drawNews();
  assert.ok(link("2 messages unanswered"));
  assert.equal(document.activeElement, link("1 station silent for over 30 min"));
  document.body.focus();
  take([place(0, "Q1A", 54, -3)]);
  drawNews();
  assert.equal(document.activeElement, document.body);
});
test("who has the keyboard among those in need keeps it where one of them is dealt with", () => {
  const urgent = document.getElementById("urgent"), sos = (second, call) => row("mic-e", second,
    call, { latitude: 54.55, longitude: -3.6, symbol: "/a", says: "emergency" });
  const labels = () => urgent.querySelectorAll("button").map(it => it.dataset.alarm);
  take([sos(1, "Q1A"), sos(2, "Q1B"), sos(3, "Q1C")]);
  drawNews();
  const [first, second] = labels();
  urgent.querySelectorAll("button")[1].focus();
  take([sos(1, "Q1A"), sos(2, "Q1B")]);
  drawNews();
  assert.ok(labels().length === 2 && first !== second);
  assert.equal(document.activeElement.dataset.alarm, second);
  // the next one in its place, or that before it: a link, where a key held down does nothing
  urgent.querySelectorAll("button")[0].focus();
  take([sos(1, "Q1A")]);
  drawNews();
  assert.match(document.activeElement.textContent, /^EMERGENCY: Q1A/);
  take([sos(1, "Q1A"), sos(2, "Q1B")]);
  drawNews();
  urgent.querySelectorAll("button")[1].focus();
  take([sos(2, "Q1B")]);
  drawNews();
  assert.match(document.activeElement.textContent, /^EMERGENCY: Q1B/);
  take([place(0, "Q1A", 54, -3)]);
  drawNews();
  assert.equal(document.activeElement, document.getElementById("ics-close"));
  document.body.focus();
});
test("of very many receivers the first are named above the news", () => {
  const receivers = Array.from({ length: 60 }, (_, k) => `RX${k + 10}`).join();
  take([place(0, "Q1A", 54, -3, { receivers })]);
  drawAbout();
  assert.match(document.getElementById("about").textContent,
    /heard by RX10, RX11, RX12, RX13, RX14, RX15, RX16, RX17, and 52 more$/);
});
test("paper says that it has a part, since nobody sees there what was chosen", () => {
  const all = { hours: 0, until: Infinity, found: 5, all: 5, clock: SETTINGS };
  assert.equal(partText(all), "");
  assert.equal(partText({ ...all, hours: 6 }), "This is a part: the last 6 h alone.");
  assert.equal(partText({ ...all, until: Date.UTC(2024, 5, 21, 18, 30) / 1000, found: 1 }),
    "This is a part: the map as it was at 18:30:00; 1 of 5 stations, objects and items.");
});
