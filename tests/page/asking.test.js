import assert from "node:assert/strict";
import { EventEmitter, once } from "node:events";
import http from "node:http";
import { test } from "node:test";
import { askFor, namesIn } from "../../page/src/intake/http-get.js";
import { Refused } from "../../page/src/util/refused.js";

/** In milliseconds, by the clock of a test; nothing of Node waits so long. */
const LIMIT = 2500;
/** What lets so much time pass for a wait of the limit. */
function clockFor(t) {
  const { setTimeout, clearTimeout } = globalThis, waits = new Map();
  t.after(() => Object.assign(globalThis, { setTimeout, clearTimeout }));
  let now = 0;
  globalThis.setTimeout = (run, wait, ...of) => {
    if (wait !== LIMIT) return setTimeout(run, wait, ...of);
    const it = {};
    waits.set(it, { end: now + wait, run });
    return it;
  };
  globalThis.clearTimeout = it => waits.delete(it) || clearTimeout(it);
  return ms => {
    now += ms;
    for (const [it, { end, run }] of waits) if (end <= now && waits.delete(it)) run();
  };
}
/** Calls this for each part that comes, before it is read: the part before it was read then. */
function listen(t, onPart) {
  const { fetch } = globalThis;
  t.after(() => { globalThis.fetch = fetch; });
  const transform = (part, control) => {
    onPart();
    control.enqueue(part);
  };
  globalThis.fetch = async (...of) => {
    const { ok, status, body } = await fetch(...of);
    return { ok, status, body: body.pipeThrough(new TransformStream({ transform })) };
  };
}
/** Calls `run` with the address of a server that answers so. */
async function served(answer, run) {
  const server = http.createServer(answer);
  await new Promise(done => server.listen(0, "127.0.0.1", done));
  try {
    await run(`http://127.0.0.1:${server.address().port}/a.log`);
  } finally {
    server.closeAllConnections();
    server.close();
  }
}
const textOf = ({ bytes }) => Buffer.from(bytes).toString();

test("what comes slowly is read to its end, and what stops is given up", async t => {
  const pass = clockFor(t), client = new EventEmitter();
  listen(t, () => {
    pass(LIMIT - 1);
    client.emit("part");
  });
  // each part is sent once the one before has come
  const parts = async (_, response) => {
    for (const part of "abcdefghijklmnop") {
      const come = once(client, "part");
      response.write(part);
      await come;
    }
    response.end();
  };
  await served(parts, async url =>
    assert.equal(textOf(await askFor(url, LIMIT)), "abcdefghijklmnop"));
  const stops = async (_, response) => {
    const come = once(client, "part");
    response.write("a");
    await come;
    pass(LIMIT);
  };
  await served(stops, url => assert.rejects(askFor(url, LIMIT), /^Error: no answer within 2.5 s$/));
});
test("a server that refuses, or hangs, is told from one that is away", async () => {
  const refuses = (_, response) => response.writeHead(500).end();
  await served(refuses, url =>
    assert.rejects(askFor(url, 9000), /^Error: the server answers 500$/));
  await served(() => {}, url => assert.rejects(askFor(url, 300), Refused));
  let away = "";
  await served((_, response) => response.end("x"), async url => {
    away = url;
    assert.equal(textOf(await askFor(url, 9000)), "x");
    const { answer, bytes } = await askFor(url, 9000, { method: "HEAD" });
    assert.deepEqual([answer.status, bytes.length], [200, 0]);
  });
  await assert.rejects(askFor(away, 9000), fault => !(fault instanceof Refused));
});
test("a list of logs is read, and what is something else is refused", () => {
  const of = text => namesIn(new TextEncoder().encode(text));
  assert.deepEqual(of("\ufeff# ours\r\na.log\r\n\r\n b c.log \n"), ["a.log", "b c.log"]);
  assert.deepEqual(of(""), []);
  const kinds = { "<!DOCTYPE html>\n<p>log in": "a web page", "<p>\n": "XML",
    "APRSBOOK 3\n": "a book", "2024-06-21T18:00:00Z RX1 c000c0\n": "a log",
    ["a.log\n".repeat(1001)]: "1,001 lines" };
  for (const [text, kind] of Object.entries(kinds))
    assert.throws(() => of(text),
      new Refused(`the server answers with ${kind}, and no list of logs`));
});
