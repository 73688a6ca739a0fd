import assert from "node:assert/strict";
import { test } from "node:test";
import { again, alive, isBusy } from "../../page/src/app/live.js";
import { aheadOf, staleWords } from "../../page/src/app/staleness.js";
import { page } from "../../page/src/app/state.js";
import { age, datedBy, timeText, zonesText } from "../../page/src/util/time.js";

const AT = Date.UTC(2024, 5, 21, 18) / 1000;
const UTC = { local: false, dated: "" }, LOCAL = { local: true, dated: "" };
const words = of => staleWords({ now: AT, end: AT - 5, answered: AT - 9, away: 0, each: 60,
  ahead: 0, refused: "", clock: UTC, ...of });

test("a page that is fresh says nothing, and what isn't heard is said", () => {
  assert.deepEqual(words({}), []);
  assert.deepEqual(words({ end: NaN, answered: 0 }), []);
  assert.deepEqual(words({ end: AT - 660 }), ["nothing was heard for 11 min"]);
  assert.deepEqual(words({ away: AT - 60, refused: "a.log: 404" }),
    ["a.log: 404", "the server has been away since 2024-06-21 17:59:00 UTC"]);
});
test("a page that slept, or doesn't load again, says so, and not that nothing was heard", () => {
  const slept = { answered: AT - 3600, end: AT - 3610 };
  assert.deepEqual(words(slept), ["this was loaded 60 min ago, at 2024-06-21 17:00:00 UTC"]);
  assert.deepEqual(words({ ...slept, end: AT - 7200 })[1],
    "nothing was heard for 60 min before that");
  // three questions may fail
  assert.deepEqual(words({ each: 600, answered: AT - 1799 }), []);
  assert.deepEqual(words({ answered: AT - 120, each: 10 }), []);
  assert.deepEqual(words({ answered: AT - 121, each: 10 }),
    ["this was loaded 2 min ago, at 2024-06-21 17:57:59 UTC"]);
});
test("a wrong clock of this computer is said, and one that may be a receiver's", () => {
  assert.deepEqual(words({ ahead: 365 * 86400, end: AT - 5 }),
    ["this computer's clock is 365 d ahead of the server's, and ages are wrong"]);
  assert.match(words({ ahead: -7200 })[0], /is 2 h behind the server's/);
  assert.deepEqual(words({ end: AT + 7200 }), ["the last transmission is dated 2 h after now: " +
    "a receiver's clock or this computer's is wrong"]);
  assert.deepEqual(words({ ahead: -59, end: AT + 59 }), []);
});
test("a clock is compared with the date of an answer, however long it took", () => {
  const date = new Date(AT * 1000).toUTCString(), ms = AT * 1000;
  assert.equal(aheadOf(date, ms + 400, ms + 600), 0);
  assert.equal(aheadOf(date, ms - 5000, ms + 9000), 0);
  assert.equal(aheadOf(date, ms + 60000, ms + 61000), 60);
  assert.equal(aheadOf(date, ms - 61000, ms - 60000), -60);
  assert.deepEqual([aheadOf(null, 0, 1), aheadOf("x", 0, 1)], [0, 0]);
});
test("ages have units, what is to come too", () => {
  assert.deepEqual([0, -0.4, 59, 5399, 5400, 172800, -30, -31536000].map(age),
    ["0 s", "0 s", "59 s", "89 min", "1 h", "2 d", "\u221230 s", "\u2212365 d"]);
});
test("both zones of a night are said in which clocks change, and each day's date", () => {
  const { TZ } = process.env, change = Date.UTC(2024, 9, 27, 1) / 1000;
  process.env.TZ = "Europe/Berlin";
  assert.equal(zonesText(change - 7200, change - 1, LOCAL), "UTC+02:00");
  assert.equal(zonesText(change - 7200, change + 7200, LOCAL), "UTC+02:00 and UTC+01:00");
  // a year that ends as it begins
  assert.equal(zonesText(change - 40 * 86400, change + 320 * 86400, LOCAL),
    "UTC+02:00 and UTC+01:00");
  process.env.TZ = TZ || "";
  assert.equal(zonesText(change - 7200, change + 7200, UTC), "UTC");
  const times = [[AT, AT + 1, Infinity], [AT, AT + 86400], [AT, 0], []];
  assert.deepEqual(times.map(it => datedBy(it, UTC)),
    ["", "day", "year", ""]);
  // such as of a receiver that began without a clock
  assert.deepEqual(["", "day", "year"].map(dated => timeText(0, { ...UTC, dated })),
    ["00:00:00", "1 Jan 00:00:00", "1970-01-01 00:00:00"]);
});
test("a page doesn't load itself again where somebody would lose what was written", () => {
  const before = Object.getOwnPropertyDescriptor(globalThis, "location");
  const of = (isWritten, isAtRisk, protocol, touched = 0, marks = null) => {
    Object.defineProperty(globalThis, "location", { value: { protocol }, configurable: true });
    Object.assign(page, { widgets: { form: { isWritten } }, own: { isAtRisk }, marks });
    alive.touched = touched;
    return isBusy();
  };
  assert.deepEqual([of(false, false, "file:"), of(true, false, "file:"), of(false, true, "file:"),
    of(false, false, "file:", Date.now())], [false, true, true, true]);
  assert.deepEqual([true, false].map(isAtRisk => of(false, false, "file:", 0, { isAtRisk })),
    [true, false]);
  // a server is asked for data alone
  assert.equal(of(true, true, "https:"), false);
  delete globalThis.location;
  if (before) Object.defineProperty(globalThis, "location", before);
});
test("a page stays where its server answers with a fault, or with another page", async t => {
  let loaded = 0, answer = { ok: false, status: 500 };
  const meta = of => ({ getAttribute: () => of }), headers = new Headers();
  const tree = (policy, data) => ({ querySelector: () => policy && meta(policy),
    getElementById: () => data && { textContent: data } });
  const own = { location: { protocol: "http:", pathname: "/", search: "", reload: () => loaded++ },
    document: tree("own", "{}"), fetch: async () => {
      if (!answer) throw new TypeError("away");
      return { ok: true, headers, text: async () => "", ...answer };
    }, DOMParser: class { parseFromString = () => answer.tree } };
  const before = Object.keys(own).map(it => [it, Object.getOwnPropertyDescriptor(globalThis, it)]);
  for (const [name, value] of Object.entries(own))
    Object.defineProperty(globalThis, name, { value, configurable: true, writable: true });
  t.after(() => before.forEach(([name, it]) =>
    it ? Object.defineProperty(globalThis, name, it) : delete globalThis[name]));
  const said = async it => {
    answer = it;
    alive.answered = 0;
    await again();
    // that of a page of its own is an answer
    assert.equal(alive.answered > 0, Boolean(it?.tree?.getElementById("data")));
    return [alive.refused, alive.away > 0, loaded];
  };
  assert.deepEqual(await said(answer), ["the server answers 500", false, 0]);
  assert.deepEqual(await said({ tree: tree("login", null) }),
    ["the server answers with another page", false, 0]);
  assert.deepEqual(await said(null), ["", true, 0]);
  assert.deepEqual(await said({ tree: tree("own", "{}") }), ["", false, 0]);
  assert.equal(alive.away, 0);
  // another version of the page
  assert.deepEqual(await said({ tree: tree("newer", "{}") }), ["", false, 1]);
});
