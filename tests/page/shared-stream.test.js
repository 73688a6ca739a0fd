// One stream for all tabs of a browser, by stand-ins for its locks, its channel and the server.

import assert from "node:assert/strict";
import { afterEach, test } from "node:test";
import { SharedStream, tabsAt } from "../../page/src/desks/shared-stream.js";
import { goneOn, patience, Stream } from "../../page/src/desks/stream.js";

const still = () => new Promise(done => setTimeout(done, 5));
/** Waits until something is so, and a little longer, so that what is too much is seen. */
async function until(isSo) {
  for (const end = Date.now() + 20000; !isSo() && Date.now() < end;) await still();
  await still();
}
const textOf = bytes => new TextDecoder().decode(bytes);

/** A browser: its tabs hear each other, and one of them has the lock. */
class BrowserStandIn {
  tabs = [];
  /** What the next tab has of it. */
  tabsOf() {
    const own = { run: () => {}, lead: null };
    this.tabs.push(own);
    own.tabs = {
      say: word => this.tabs.forEach(it => it !== own && setImmediate(() =>
        this.tabs.includes(it) && it.run(structuredClone(word)))),
      listen: run => { own.run = run; },
      lead: run => { own.lead = run; this.grant(); },
    };
    return own;
  }
  grant() {
    const [first] = this.tabs;
    const { lead } = first || {};
    if (lead) setImmediate(() => this.tabs[0] === first && lead());
    if (lead) first.lead = null;
  }
  close(own) {
    this.tabs = this.tabs.filter(it => it !== own);
    this.grant();
  }
}
/** A server of one journal; it says what is new to the streams that are open. */
class ServerStandIn {
  text = "";
  streams = [];
  asked = 0;
  isAway = false;
  /** What is read of an address: from the last line that a tab has on. */
  eventFor(url) {
    const had = Number(/have=desks%2FA.jsonl%3A(\d+)/.exec(url)?.[1] || 0);
    const begin = had ? this.text.lastIndexOf("\n", had - 2) + 1 : 0;
    const rest = this.text.slice(begin, -1);
    return rest && `desks/A.jsonl ${begin} ${this.text.length}\n${rest}`;
  }
  open(url) {
    const on = {}, it = { url, isOpen: true, close() { this.isOpen = false; },
      addEventListener: (kind, run) => { on[kind] = data => it.isOpen && run({ data }); } };
    it.tell = () => this.eventFor(it.url) && on.lines(this.eventFor(it.url));
    this.streams.push(it);
    setImmediate(() => this.isAway ? it.onerror() : (on.net("{}"), it.tell()));
    return it;
  }
  async ask(url) {
    this.asked++;
    await still();
    if (this.isAway) throw new Error("away");
    const event = this.eventFor(url), lines = event.split("\n").map(it => `data: ${it}\n`).join("");
    return `event: net\ndata: {}\n\n${event && `event: lines\n${lines}\n`}`;
  }
  get opened() {
    return this.streams.filter(it => it.isOpen);
  }
  add(text) {
    const before = this.text.length;
    this.text += text;
    for (const it of this.opened) {
      it.url = `events?have=${encodeURIComponent(`desks/A.jsonl:${before}`)}`;
      it.tell();
    }
  }
}
const made = [];
/** A tab, and what it has read. */
function tabOf(browser, server) {
  const own = browser?.tabsOf() || null;
  const it = { own, had: new Uint8Array(), isThere: null, gaps: 0 };
  const listener = { sizes: () => new Map(it.had.length ? [["desks/A.jsonl", it.had.length]] : []),
    take: told => {
      const all = goneOn(it.had, told);
      if (all) it.had = all;
      else it.gaps++;
    },
    anew() {}, gone() {}, net() {}, alive: is => { it.isThere = is; } };
  it.shared = new SharedStream(listener, own?.tabs || null, of =>
    new Stream(of, url => server.open(url), url => server.ask(url)));
  made.push(it.shared);
  it.shared.begin();
  return it;
}
const stop = shared => {
  clearTimeout(shared.timer);
  clearTimeout(shared.stream.timer);
};
afterEach(() => made.splice(0).forEach(stop));
const texts = tabs => tabs.map(it => textOf(it.had));
const all = (n, what) => Array.from({ length: n }, () => what);
const haveAll = (tabs, text) => until(() => texts(tabs).every(it => it === text));

test("of eight tabs one has a stream, and all have what it says", async () => {
  const browser = new BrowserStandIn(), server = new ServerStandIn();
  server.add("one\n");
  const tabs = [];
  for (let k = 0; k < 8; k++) {
    tabs.push(tabOf(browser, server));
    await still();
  }
  await haveAll(tabs, "one\n");
  assert.equal(server.opened.length, 1);
  assert.deepEqual(texts(tabs), all(8, "one\n"));
  const { asked } = server;
  assert.equal(asked, 7);
  server.add("two\n");
  await haveAll(tabs, "one\ntwo\n");
  assert.deepEqual(texts(tabs), all(8, "one\ntwo\n"));
  // what is new is asked for by nobody
  assert.deepEqual([server.asked, tabs.reduce((n, it) => n + it.gaps, 0)], [asked, 0]);
  assert.deepEqual(tabs.map(it => it.isThere), all(8, true));
});
test("where the leading tab is closed, the next one goes on from where it is", async () => {
  const browser = new BrowserStandIn(), server = new ServerStandIn();
  server.add("one\n");
  const tabs = [0, 1, 2].map(() => tabOf(browser, server));
  await haveAll(tabs, "one\n");
  const [first, ...others] = tabs;
  stop(first.shared);
  server.opened[0].close();
  browser.close(first.own);
  server.add("two\n");
  await haveAll(others, "one\ntwo\n");
  server.add("three\n");
  await haveAll(others, "one\ntwo\nthree\n");
  assert.equal(server.opened.length, 1);
  assert.deepEqual(others.map(it => it.shared.leads), [true, false]);
  assert.deepEqual(texts(others), all(2, "one\ntwo\nthree\n"));
  assert.deepEqual(others.map(it => it.gaps), [0, 0]);
});
test("what is said while a tab asks for what it lacks is taken behind that", async () => {
  const browser = new BrowserStandIn(), server = new ServerStandIn();
  server.add("one\n");
  const first = tabOf(browser, server);
  await haveAll([first], "one\n");
  const { ask } = server;
  let answer;
  server.ask = async url => {
    const text = await ask.call(server, url);
    await new Promise(done => { answer = done; });
    return text;
  };
  const late = tabOf(browser, server);
  await until(() => answer);
  server.add("two\n");
  server.add("three\n");
  await haveAll([first], "one\ntwo\nthree\n");
  assert.deepEqual(texts([first, late]), ["one\ntwo\nthree\n", ""]);
  answer();
  await haveAll([late], "one\ntwo\nthree\n");
  assert.deepEqual([...texts([late]), late.gaps], ["one\ntwo\nthree\n", 0]);
});
test("that the server is away is known in all tabs, and one that comes later asks", async () => {
  const browser = new BrowserStandIn(), server = new ServerStandIn();
  const tabs = [0, 1].map(() => tabOf(browser, server));
  const areAll = isThere => until(() => tabs.every(it => it.isThere === isThere));
  await areAll(true);
  server.isAway = true;
  server.opened[0].onerror();
  tabs.push(tabOf(browser, server));
  await areAll(false);
  assert.deepEqual(tabs.map(it => it.isThere), all(3, false));
  server.isAway = false;
  server.add("one\n");
  const [{ shared: { stream } }] = tabs;
  clearTimeout(stream.timer);
  stream.begin();
  await haveAll(tabs, "one\n");
  assert.deepEqual([tabs.map(it => it.isThere), texts(tabs)], [all(3, true), all(3, "one\n")]);
});
test("an answer that the server cut off is asked on from its end", async () => {
  const browser = new BrowserStandIn(), server = new ServerStandIn(), long = "x".repeat(2 ** 20);
  server.add("one\n");
  const first = tabOf(browser, server);
  await haveAll([first], "one\n");
  server.add(`${long}\n`);
  const { eventFor } = server;
  // no answer has more than one line and a part of what is behind it
  server.eventFor = url => {
    const event = eventFor.call(server, url), [head, ...lines] = event.split("\n");
    return [head, ...lines.slice(0, 2)].join("\n");
  };
  server.text += "two\nthree\n";
  const late = tabOf(browser, server);
  await haveAll([late], server.text);
  assert.deepEqual([first.had.length, late.gaps, late.had.length],
    [2 ** 20 + 5, 0, server.text.length]);
});
test("a tab that hears nothing of the leading one listens itself, as does the next", async () => {
  const before = { ...patience };
  Object.assign(patience, { first: 10, silent: 10 });
  const browser = new BrowserStandIn(), server = new ServerStandIn();
  server.add("one\n");
  // it has the lock, and hangs
  const hung = browser.tabsOf();
  hung.tabs.lead(() => {});
  await still();
  const tabs = [0, 1].map(() => tabOf(browser, server));
  Object.assign(patience, before);
  await haveAll(tabs, "one\n");
  assert.deepEqual([server.opened.length, texts(tabs)], [2, all(2, "one\n")]);
  // and where it gets the lock, it goes on with the stream that it has
  browser.close(hung);
  await still();
  assert.equal(server.opened.length, 2);
});
test("without locks or a channel each tab has a stream of its own", async () => {
  const server = new ServerStandIn();
  server.add("one\n");
  const tabs = [0, 1].map(() => tabOf(null, server));
  await haveAll(tabs, "one\n");
  assert.deepEqual([server.opened.length, texts(tabs), server.asked], [2, all(2, "one\n"), 0]);
  const locks = Object.getOwnPropertyDescriptor(globalThis, "navigator");
  Object.defineProperty(globalThis, "navigator", { value: {}, configurable: true });
  assert.equal(tabsAt("http://localhost/"), null);
  if (locks) Object.defineProperty(globalThis, "navigator", locks);
});
test("tabs of one net hear each other, and the lock is asked for by its address", async t => {
  const asked = [];
  const own = Object.getOwnPropertyDescriptor(globalThis, "navigator");
  Object.defineProperty(globalThis, "navigator", { configurable: true, value: { locks: {
    request: async (name, run) => { asked.push(name); return run(); } } } });
  const channels = [];
  const { BroadcastChannel } = globalThis;
  globalThis.BroadcastChannel = class extends BroadcastChannel {
    constructor(name) { super(name); channels.push(this); }
  };
  t.after(() => {
    channels.forEach(it => it.close());
    Object.assign(globalThis, { BroadcastChannel });
    if (own) Object.defineProperty(globalThis, "navigator", own);
  });
  const one = tabsAt("http://localhost/a/"), two = tabsAt("http://localhost/a/");
  const other = tabsAt("http://localhost/b/"), heard = [];
  two.listen(word => heard.push(["two", ...word]));
  one.listen(word => heard.push(["one", ...word]));
  other.listen(word => heard.push(["other", ...word]));
  one.say(["alive", true]);
  for (let k = 0; k < 50 && !heard.length; k++) await still();
  assert.deepEqual(heard, [["two", "alive", true]]);
  let leads = 0;
  one.lead(() => leads++);
  await still();
  assert.deepEqual([leads, asked], [1, ["aprsbook http://localhost/a/"]]);
});
test("a stream that ended begins again after half of its time to one and a half", t => {
  const waits = [], stream = new Stream({ alive() {} });
  t.mock.method(globalThis, "setTimeout", (_, wait) => { waits.push(wait); });
  for (let k = 0; k < 50; k++) stream.end();
  assert.equal(waits.length, 50);
  assert.ok(waits.every(it => it >= patience.again / 2 && it <= 1.5 * patience.again));
});
