import assert from "node:assert/strict";
import { test } from "node:test";
import zlib from "node:zlib";
import { answering, bytesOf, line } from "./stand.js";
import { place, table } from "./tables.js";
import { filesOf } from "../../page/src/intake/folders.js";
import { byId, enter, open, skip, textsOf, until } from "./window.js";

const packed = text => zlib.deflateSync(Buffer.from(text)).toString("base64");
const SHELL = "<title>@TITLE@</title>@CONNECT@|@COAST@|@DATA@|end";
const PARTS = { worker: "", module: "AGFzbQEAAAA=", event: packed(SHELL),
  example: packed(JSON.stringify({ "hill.log": line("18:00:00", "HILL") })) };
/** A log of a plain position, heard by a receiver at a clock. */
function logOf(clock, receiver, source = "Q1A", text = "!5430.00N/00330.00W>on foot") {
  const call = (name, last) => [...name.padEnd(6).slice(0, 6)].map(it => it.charCodeAt(0) << 1)
    .concat(last);
  const frame = [...call("APRS", 0xe0), ...call(source, 0x61), 3, 0xf0, ...Buffer.from(text)];
  return `2024-06-21T${clock}Z ${receiver} c000${Buffer.from(frame).toString("hex")}c0\n`;
}
const fileOf = (name, text) => new File([text], name);

if (!skip) {
  const window = open(null, { reads: true });
  const parts = window.document.createElement("script");
  Object.assign(parts,
    { type: "application/json", id: "parts", textContent: JSON.stringify(PARTS) });
  window.document.body.append(parts);
  await import("../../page/src/main-reader.js");
  await until(() => !byId("choose").disabled);
}
const { options } = skip ? {} : await import("../../page/src/intake/options.js");
const { aprsbook, aprsfiles } = globalThis;
const rows = () => [...document.querySelectorAll("#files tbody tr")];
const verdicts = () => Object.fromEntries(rows().map(it =>
  [it.querySelector("th").textContent, it.querySelector(".verdict").textContent]));

/** Takes files of these names away. */
function takeAway(...names) {
  for (const name of names)
    rows().find(it => it.querySelector("th").textContent === name)
      .querySelector("td:last-child button").click();
}

test("the page begins without a log, and says that it is ready", { skip }, () => {
  assert.deepEqual([byId("choose").disabled, byId("status").textContent, byId("net").hidden],
    [false, "", true]);
  assert.deepEqual(textsOf("#saves button").slice(0, 4), ["book", "history (text)",
    "listing (text)", "page of the event (HTML)"]);
  assert.equal(byId("book").disabled, true);
});
test("what folds has a name", { skip }, () => {
  const names = [...document.querySelectorAll("details")].map(it => it.getAttribute("aria-label"));
  assert.ok(names.length >= 4 && names.every(Boolean), names.join());
});
test("an empty file that should be packed is said to be none", { skip }, async () => {
  await aprsfiles.add([fileOf("cut.log.gz", ""), fileOf("new.log", "")]);
  assert.deepEqual(verdicts(),
    { "cut.log.gz": "is empty, which no gzip is", "new.log": "heard 0 passed 0" });
  assert.equal(byId("fold").open, true);
  takeAway("cut.log.gz", "new.log");
});
test("logs are checked, merged and drawn, and what is none says why", { skip }, async () => {
  await aprsfiles.add([fileOf("hill.log", logOf("18:00:00", "HILL") + logOf("18:05:00", "HILL")),
    fileOf("coast.log", logOf("18:00:02", "COAST")), fileOf("x.pdf", "%PDF-1.7")]);
  assert.deepEqual(verdicts(), { "hill.log": "heard 2 passed 0", "coast.log": "heard 1 passed 0",
    "x.pdf": "is a PDF, which no log is" });
  assert.match(byId("status").textContent, /^2 transmissions of 2 files, in [\d.]+ s$/);
  assert.equal(byId("about").textContent, "2024-06-21 18:00:00 to 18:05:00 UTC \u00b7 " +
    "2 transmissions of 1 station \u00b7 heard by COAST, HILL");
  assert.deepEqual(aprsbook.data.notes, ["x.pdf was left out: is a PDF, which no log is"]);
  assert.equal(byId("book").disabled, false);
  // the same again is nothing new
  await aprsfiles.add([fileOf("coast.log", logOf("18:00:02", "COAST"))]);
  assert.equal(aprsfiles.files.length, 3);
});
test("where damaged lines are left out the keyboard stays in the row of their file", { skip },
  async () => {
    await aprsfiles.add([fileOf("torn.log", logOf("18:06:00", "TORN") + "2024-06-21T18:0")]);
    const leave = document.querySelector("#files .leave");
    leave.focus();
    leave.click();
    await until(() => verdicts()["torn.log"] === "heard 1 passed 0");
    assert.equal(document.activeElement.textContent, "1 line left out");
    takeAway("torn.log");
    await until(() => aprsbook.data.notes.length === 1);
  });
test("a log that was packed twice says so, and one that was packed once is read", { skip },
  async () => {
    const packed = times => {
      let bytes = Buffer.from(logOf("18:07:00", "PACKED"));
      for (let k = 0; k < times; k++) bytes = zlib.gzipSync(bytes);
      return new File([bytes], `${times}.log.gz`);
    };
    await aprsfiles.add([packed(1), packed(2)]);
    const { "1.log.gz": once, "2.log.gz": twice } = verdicts();
    assert.deepEqual([once, twice],
      ["heard 1 passed 0", "is packed by gzip twice: unpack it once"]);
    takeAway("1.log.gz", "2.log.gz");
    await until(() => aprsbook.data.notes.length === 1);
  });
test("a picture that the browser can't unpack says why it is no map", { skip }, async () => {
  const { createImageBitmap } = globalThis;
  globalThis.createImageBitmap = async () => { throw new Error("out of memory"); };
  const png = Uint8Array.from([0x89, 80, 78, 71, 13, 10, 26, 10, 0, 0, 0, 0]);
  await aprsfiles.add([new File([png], "huge.png")]);
  globalThis.createImageBitmap = createImageBitmap;
  assert.equal(verdicts()["huge.png"],
    "is a picture, which no log is, and can\u2019t be drawn as " +
    "a map: this browser can\u2019t unpack it, which is damaged or too large");
  takeAway("huge.png");
  await until(() => aprsbook.data.notes.length === 1);
});
test("how large the saved map may be is asked for where there is one, be it of one level", { skip },
  () => {
    const { layers: { tiles } } = aprsbook, menu = byId("saves");
    const field = byId("most").closest("label"), own = { least: tiles.least, most: tiles.most };
    const isHiddenAt = (least, most) => {
      Object.assign(tiles, { least, most });
      menu.dispatchEvent(new Event("toggle"));
      return field.hidden;
    };
    assert.deepEqual([isHiddenAt(12, 11), isHiddenAt(12, 12), isHiddenAt(11, 12)],
      [true, false, false]);
    Object.assign(tiles, own);
  });
test("the page of the event has what is drawn, and its title", { skip }, async () => {
  enter("name", "Fell <race>");
  await until(() => aprsbook.data.title === "Fell <race>");
  const { bring, takeAllAway } = await import("../../page/src/app/add-layer.js");
  await bring("points.txt", "Tarn 54.5 -3.5 150");
  aprsbook.page.marks.add("dealt", { alarm: "home Q1A", note: "went home" });
  const page = await aprsfiles.eventPage({ "1/0/0": "cA==" });
  const [head, coast, data, end] = page.split("|");
  assert.deepEqual([head, coast, end], ["<title>Fell &lt;race&gt;</title>", "", "end"]);
  const { title, rows, tiles, live, gap, silent, points, marks } = JSON.parse(data);
  assert.deepEqual([points, JSON.parse(marks).alarm], ["Tarn 54.5 -3.5 150", "home Q1A"]);
  takeAllAway();
  assert.deepEqual([title, rows.split("\n").length, tiles, live, gap, silent],
    ["Fell <race>", 4, { "1/0/0": "cA==" }, 0, 30, 30]);
  assert.ok(!data.includes("<"));
});
test("the page of the event says who repeated whom, also where it is saved at once", { skip },
  async () => {
    const repeated = table([place(0, "Q1A", 1, 2, { via: "Q1DIG*" })]), asked = [];
    const answer = ({ command, options }) => {
      if (command === "rows" && options === 1) asked.push(command);
      return command === "rows" && options === 1 && { status: 0, bytes: bytesOf(repeated) };
    };
    await answering({ answer }, async () => {
      await aprsfiles.add([fileOf("hill2.log", logOf("18:09:00", "HILL"))]);
      takeAway("x.pdf");
      await until(() => aprsbook.data.notes.length === 0 && !byId("event").disabled);
      const page = await aprsfiles.eventPage(), [, , data] = page.split("|");
      assert.equal(JSON.parse(data).repeats, "Q1DIG\tQ1A\t1\n");
      const told = "Counted by all copies that were heard.";
      await until(() => byId("repeated-told").textContent === told);
      assert.equal(byId("repeated-told").textContent, told);
      // it was counted for that page, and isn't counted again
      const { length } = asked;
      await aprsfiles.eventPage();
      assert.equal(await aprsfiles.made().countRepeats(), "Q1DIG\tQ1A\t1\n");
      assert.equal(asked.length, length);
    });
    // behind the tables, where the page of the tool has it too
    const keys = Object.keys(JSON.parse((await aprsfiles.eventPage()).split("|")[2]));
    assert.deepEqual(keys.slice(keys.indexOf("rows")).slice(0, 3), ["rows", "messages", "repeats"]);
    takeAway("hill2.log");
    await aprsfiles.add([fileOf("x.pdf", "%PDF-1.7")]);
  });
test("a gap that is none is said, and files go when they are taken away", { skip }, async () => {
  enter("gap", "0");
  await until(() => byId("status").textContent.includes("gap"));
  assert.equal(byId("status").textContent,
    "the gap has to be a whole number of seconds, from 1 to 3600");
  // what is written counts once it is chosen; a number that is none is as if nothing were written
  assert.deepEqual([options.isGap, options.gap], [false, 30]);
  byId("gap").value = "60";
  assert.equal(options.gap, 30);
  enter("gap", "60");
  await until(() => aprsbook.data.gap === 60);
  assert.deepEqual([options.isGap, options.gap, aprsbook.data.gap], [true, 60, 60]);
  enter("silent", "0");
  assert.deepEqual([options.silent, aprsbook.data.silent], [30, 30]);
  for (const [title, shown] of [["", "APRS net"], ["Fell <race>", "Fell <race>"]]) {
    enter("name", title);
    await until(() => aprsbook.data.title === shown);
    assert.deepEqual([options.title, byId("title").textContent], [shown, shown]);
  }
  for (let k = 0; k < 2; k++) {
    document.querySelector("#files tbody td:last-child button").click();
  }
  assert.equal(aprsfiles.files.length, 1);
});
test("the example is read at a click", { skip }, async () => {
  byId("example").click();
  await until(() => verdicts()["hill.log"]);
  assert.ok(Object.keys(verdicts()).includes("hill.log"));
});
test("a log that has grown takes its older one's place, and what is new is marked", { skip },
  async () => {
    while (rows().length) rows()[0].querySelector("td:last-child button").click();
    await until(() => !aprsfiles.files.length);
    const first = logOf("18:00:00", "HILL"), more = logOf("18:30:00", "HILL", "Q1B");
    await aprsfiles.add([fileOf("hill.log", first)]);
    const [row] = rows();
    await aprsfiles.add([fileOf("hill.log", first + more)]);
    assert.deepEqual(verdicts(), { "hill.log": "heard 2 passed 0" });
    assert.deepEqual([rows()[0] === row, rows().length, aprsfiles.files.length], [true, 1, 1]);
    const [, clock] = /^1 new since (\S+): mark as seen$/.exec(byId("looked").textContent);
    // since a moment ago, also where that was before midnight
    const ago = (Date.now() - Date.parse(`1970-01-01T${clock}Z`)) % 86400000;
    assert.ok(ago < 60000, `${clock} was ${ago} ms ago`);
    // ages still count to the last transmission: nobody says that the net goes on
    assert.equal(aprsbook.page.follows, false);
    // and it stays new in another drawing, until the reader says that it is seen
    await aprsbook.refresh();
    assert.match(byId("looked").textContent, /^1 new since/);
    byId("looked").click();
    assert.equal(byId("looked").hidden, true);
  });
test("a log that is read while its last line is written stays, and has that line later", { skip },
  async () => {
    const first = logOf("18:00:00", "MOOR"), more = logOf("18:31:00", "MOOR", "Q1M");
    const give = text => aprsfiles.add([fileOf("moor.log", text)]);
    const heard = () => verdicts()["moor.log"];
    // at first it is asked for, since nobody knows that the log grows
    await give(first + more.slice(0, 30));
    assert.equal(heard(), "line 2: NoNewline");
    await give(first + more.slice(0, 40));
    assert.equal(heard(), "heard 1 passed 0");
    assert.ok(aprsbook.data.notes
      .includes("moor.log: its last line isn\u2019t whole yet"));
    await give(first + more + more.slice(0, 9));
    assert.equal(heard(), "heard 2 passed 0");
    // what else is wrong is asked for all the same
    await give(first + more + "torn\n" + more);
    assert.match(heard(), /^line 3: /);
    await give(first + more + "torn\n" + more + more);
    assert.match(heard(), /^line 3: /);
    takeAway("moor.log");
    await until(() => !verdicts()["moor.log"]);
  });
test("a log whose handle the browser gave is read again as it grows", { skip }, async () => {
  const { reread } = await import("../../page/src/intake/reread.js");
  let text = logOf("18:00:00", "COAST"), at = 1;
  const handle = { kind: "file",
    getFile: async () => new File([text], "coast.log", { lastModified: at }) };
  const item = { kind: "file", webkitGetAsEntry: () => ({ isFile: true }),
    getAsFileSystemHandle: async () => handle };
  await aprsfiles.add(await filesOf({ items: [item], files: [await handle.getFile()] }));
  await reread();
  assert.equal(verdicts()["coast.log"], "heard 1 passed 0");
  assert.equal(aprsbook.page.follows, false);
  text += logOf("18:40:00", "COAST", "Q1C");
  at++;
  await reread();
  assert.equal(verdicts()["coast.log"], "heard 2 passed 0");
  assert.equal(aprsbook.page.follows, true);
  // also where no list of logs is followed
  const { follow } = await import("../../page/src/intake/follow.js");
  await follow();
  assert.equal(aprsbook.page.follows, true);
  // one that is gone stays as it was read
  handle.getFile = () => Promise.reject(new Error("NotFoundError"));
  await reread();
  assert.equal(verdicts()["coast.log"], "heard 2 passed 0");
});
test("logs beside the page are followed as a list names them, those of this server alone", { skip },
  async () => {
    const { fetch } = globalThis, asked = [], log = logOf("18:50:00", "HILL", "Q1F");
    const texts = { "/logs.txt": "hill2.log\nhttps://elsewhere.example/x.log\n",
      "/hill2.log": log };
    globalThis.fetch = async (url, { method } = {}) => {
      const bytes = new TextEncoder().encode(texts[new URL(url).pathname] ?? "");
      asked.push(String(url));
      return new Response(method === "HEAD" ? null : bytes, { status: bytes.length ? 200 : 404,
        headers: { "content-length": String(bytes.length) } });
    };
    enter("follow", "logs.txt");
    await until(() => verdicts()["hill2.log"]?.startsWith("heard"));
    assert.equal(verdicts()["hill2.log"], "heard 1 passed 0");
    assert.deepEqual([...new Set(asked)],
      ["http://localhost/logs.txt", "http://localhost/hill2.log"]);
    assert.equal(aprsbook.alive.refused,
      "logs.txt: no log of this server: https://elsewhere.example/x.log");
    // one that fails, comes and fails again has been away since the last time
    const { followOne, pace } = await import("../../page/src/intake/follow.js");
    const { now } = Date, [file] = aprsfiles.files.filter(it => it.name === "hill2.log");
    const awayAt = async (hour, text) => {
      texts["/hill2.log"] = text;
      Date.now = () => Date.UTC(2024, 5, 21, hour);
      await followOne("hill2.log", "http://localhost/hill2.log");
      return file.away;
    };
    const since = hour => `the server answers 404, since 2024-06-21 ${hour}:00:00 UTC`;
    assert.deepEqual([await awayAt(19, ""), await awayAt(20, ""), await awayAt(21, log),
      await awayAt(22, "")], [since(19), since(19), "", since(22)]);
    Date.now = now;
    assert.deepEqual(pace, { each: 15, limit: 10000 });
    // with no list nothing is asked for any more
    const { length } = asked;
    enter("follow", "");
    await new Promise(done => setTimeout(done, 50));
    globalThis.fetch = fetch;
    assert.deepEqual([asked.length, aprsbook.page.follows], [length, false]);
  });
test("a list is asked for once at a time, and the one that was chosen meanwhile after it", { skip },
  async () => {
    const { fetch } = globalThis, asked = [];
    let answer = () => {};
    const isAnswered = new Promise(done => { answer = done; });
    globalThis.fetch = async url => {
      asked.push(new URL(url).pathname);
      await isAnswered;
      return new Response("", { status: 503 });
    };
    enter("follow", "slow.txt");
    await until(() => asked.length);
    for (const list of ["slow.txt", "next.txt"]) enter("follow", list);
    assert.deepEqual(asked, ["/slow.txt"]);
    answer();
    await until(() => aprsbook.alive.refused.startsWith("next.txt"));
    assert.deepEqual(asked, ["/slow.txt", "/next.txt"]);
    assert.match(aprsbook.alive.refused, /^next.txt: the server answers 503, since 2\d{3}-/);
    assert.match(byId("stale").textContent, /^next.txt: the server answers 503/);
    // nothing is said of a list once there is none
    enter("follow", "");
    const { refused, away, answered } = aprsbook.alive;
    assert.deepEqual([refused, away, answered, byId("stale").textContent], ["", 0, 0, ""]);
    globalThis.fetch = fetch;
  });
test("the focus goes to the file behind the one that is taken away, or before it", { skip },
  async () => {
    while (rows().length) rows()[0].querySelector("td:last-child button").click();
    await aprsfiles.add(["a", "b", "c", "d"].map((it, k) =>
      fileOf(`${it}.log`, logOf(`18:0${k}:00`, "HILL"))));
    const focused = () => document.activeElement.closest("tr")?.querySelector("th").textContent;
    takeAway("a.log");
    assert.equal(focused(), "b.log");
    takeAway("d.log");
    assert.equal(focused(), "c.log");
    takeAway("b.log", "c.log");
    assert.equal(document.activeElement, byId("choose"));
  });
