// @ts-check
// A page that `aprs-net serve` hands out: it is told at once what is new in the logs, and has what
// desks write down for one another.

import { bring, putFirst, takeAway } from "../app/add-layer.js";
import { alive, isServed, tick } from "../app/live.js";
import { drawNetPanel, nowOf } from "../app/net-panel.js";
import { drawMarks } from "../app/render.js";
import { page, tell } from "../app/state.js";
import { Journal } from "../desks/journal.js";
import { SharedStream, tabsAt } from "../desks/shared-stream.js";
import { goneOn } from "../desks/stream.js";
import { storeOf } from "../ics309/own-lines.js";
import { messageOf } from "../util/text.js";
import { drawAgain, work } from "./book.js";
import { files } from "./file-table.js";
import { options, setOption } from "./options.js";
import { drawServed } from "./served-tiles.js";
import { followed, followedOf, followOne, mark, takeWhole, told } from "./follow.js";

/** @typedef {import("../desks/stream.js").Told} Told */
/** @typedef {import("../desks/stream.js").NetTold} NetTold */
const LOGS = "logs/", DESKS = "desks/";
/** The least milliseconds from one book to the next. */
const REST = 250;

/** The files whose bytes were told and aren't taken yet, by their names. */
const fresh = /** @type {Map<string, Uint8Array>} */ (new Map());
/** How far each journal was read. */
const heard = /** @type {Map<string, number>} */ (new Map());
/** Names of logs that have to be asked for. */
const asked = new Set();
let isTaking = false;

/** @param {string} name */
const urlOf = name => new URL(LOGS + name, location.href).href;
/** @param {string} name */
const bytesOf = name => fresh.get(name) || followed.get(urlOf(name))?.whole || new Uint8Array();

/** How many bytes of each file are here. */
function sizes() {
  const all = new Map(heard);
  for (const url of followed.keys()) {
    const name = decodeURIComponent(url.slice(urlOf("").length));
    all.set(name, bytesOf(name).length);
  }
  for (const [name, whole] of fresh) all.set(name, whole.length);
  return all;
}
/** @param {Told} it */
function take(it) {
  if (it.name.startsWith(DESKS)) return takeJournal(it);
  const whole = goneOn(bytesOf(it.name), it);
  if (!whole) return ask(it.name);
  fresh.set(it.name, whole);
  takeSoon();
}
/** @param {Told} it */
function takeJournal({ name, begin, bytes }) {
  if (!bytes) return;
  heard.set(name, begin + bytes.length);
  page.journal?.hear(new TextDecoder().decode(bytes));
}
/** @param {string} name */
function ask(name) {
  if (name.startsWith(DESKS)) return heard.delete(name);
  fresh.delete(name);
  asked.add(name);
  takeSoon();
}
/** Takes what was told, and what comes while that is drawn thereafter. */
async function takeSoon() {
  if (isTaking) return;
  isTaking = true;
  while (fresh.size || asked.size) {
    await new Promise(done => setTimeout(done, REST));
    const now = [...fresh], names = [...asked];
    asked.clear();
    let isNew = false;
    for (const [name, whole] of now) {
      const file = followedOf(LOGS + name, urlOf(name));
      if (files.includes(file)) {
        isNew = await takeWhole(file, file.whole || new Uint8Array(), whole) || isNew;
        mark(file, "");
      }
      if (fresh.get(name) === whole) fresh.delete(name);
    }
    for (const name of names) isNew = await followOne(LOGS + name, urlOf(name)) || isNew;
    if (isNew) await work();
  }
  isTaking = false;
}

// ---- what desks share

/**
 * Sends entries of a desk.
 * @type {import("../desks/journal.js").Send}
 */
async function send(desk, text) {
  const answer = await fetch(DESKS + desk, { method: "POST", body: text,
    headers: { "Content-Type": "application/x-ndjson" } });
  if (answer.status >= 500 || answer.status === 401) return null;
  const says = answer.ok ? await answer.json() : null;
  return says ? says.refused.length + says.more : text.split("\n").length - 1;
}
/** What the server said of the net last. */
let net = /** @type {NetTold | null} */ (null);
/** What was set in the page last, by names of settings. */
const set = /** @type {Map<string, string>} */ (new Map());
/**
 * Sets something of the net where it is another than before.
 * @param {string} name
 * @param {string} value
 * @param {(value: string) => void} run
 */
function setOf(name, value, run) {
  if (set.get(name) === value) return;
  set.set(name, value);
  run(value);
}
/** @param {"title" | "silent"} name */
const putIn = name => (/** @type {string} */ value) => {
  setOption(name, value);
  drawAgain();
};
/** What stands in the page as the net's names: those of desks come before those of the roster. */
function namesText() {
  return [...page.journal?.names || []].map(([call, name]) => `${call} ${name}\n`).join("");
}
/** What is brought comes one after the other: a long map is read in slices. */
let turn = Promise.resolve();
const inTurn = (/** @type {() => Promise<void>} */ step) => {
  turn = turn.then(step).catch(fault => tell(messageOf(fault), true));
};
/** Has the page show what the server and the desks say of the net. */
function applySettings() {
  if (!net) return;
  const { title, silent, roster, courses, tiles } = nowOf(net, page.journal?.settings || new Map());
  setOf("title", title, putIn("title"));
  setOf("silent", silent, putIn("silent"));
  setOf("names", namesText(), text => inTurn(() => bringOnly(NAMES, [text])));
  setOf("roster", roster, () => inTurn(() => bringOnly("roster of the net", [roster])));
  setOf("course", courses.join("\0"), () => inTurn(() => bringOnly("course of the net", courses)));
  setOf("tiles", tiles, drawServed);
}
const NAMES = "names of desks";
/**
 * Has the page show these texts under a name, and no others.
 * @param {string} name
 * @param {string[]} texts
 */
async function bringOnly(name, texts) {
  takeAway(new RegExp(`^${name}`));
  for (const [k, text] of texts.filter(it => it).entries())
    await bring(k ? `${name}, ${k + 1}` : name, text);
  // of a call that stands in several lists the first line counts
  putFirst(NAMES);
}
/** What a desk has written is new: the form, the names and the panel have it. */
function journalChanged() {
  applySettings();
  drawMarks();
  drawPanel();
}
const drawPanel = () => net && drawNetPanel({ net, journal: page.journal, isThere: told.now });

// ---- begin

/** Has the operator's lines go to the journal, and those of other desks stand beside them. */
function share(/** @type {Journal} */ journal) {
  page.journal = page.marks = journal;
  page.own.shared = journal;
  journal.onChange = journalChanged;
}
/** Listens to the server, if it is one that tells what is new. */
export async function beginServed() {
  if (!isServed()) return;
  const answer = await fetch("who", { cache: "no-store" }).catch(() => null);
  if (!answer?.ok || answer.headers.get("content-type") !== "application/json") return;
  const who = await answer.json();
  net = who.net;
  if (who.name) share(new Journal(who.name, send, storeOf()));
  applySettings();
  const stream = new SharedStream({ sizes, take, anew: ask, gone() {},
    net(text) {
      net = JSON.parse(text);
      applySettings();
      drawPanel();
    },
    alive(isThere) {
      told.now = isThere;
      // what was refused before it told of all logs is so no more
      if (isThere) Object.assign(alive, { answered: Date.now(), away: 0, refused: "" });
      else alive.away ||= Date.now();
      if (isThere) page.journal?.sendAll();
      drawPanel();
      tick();
    } }, tabsAt(new URL(".", location.href).href));
  page.follows = true;
  // so that it is asked where no stream comes through
  if (!options.list) setOption("list", "logs.txt");
  stream.begin();
}
