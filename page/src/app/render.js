// @ts-check
// Draws the page: its lists, its map and what stands above them.

import { readBrought } from "./brought.js";
import { callsBefore, openMarks } from "./dealt.js";
import { drawAbout, drawLooked, drawNews } from "./header.js";
import { holdClock } from "./playback.js";
import { madeHays, sift } from "./search.js";
import { drawOne, pick } from "./selection.js";
import { page, presentOf, shownNow, view, widgets } from "./state.js";
import { inOrder } from "../lists/messages.js";
import { linesOf, passedList, passedWords, turnsOf, visitList } from "../lists/passed.js";
import { pairList, shareText } from "../lists/stations.js";
import { timelineList } from "../lists/timeline.js";
import { Colouring, wayFor } from "../map/colours.js";
import { passedOf } from "../net/checkpoints.js";
import { MOST_COMPARED } from "../net/clock-offsets.js";
import { hearings, repeatsOf } from "../net/hearings.js";
import { messagesOf } from "../net/message-table.js";
import { allOf, netOf } from "../net/net.js";
import { expectedOf, Names } from "../net/roster.js";
import { Rows } from "../net/rows.js";
import { columnsOf } from "../net/table-reader.js";
import { byId, make, write } from "../util/dom.js";
import { later } from "../util/task-queue.js";
import { atOnce, inSlices, once } from "../util/tasks.js";
import { datedBy } from "../util/time.js";

/** @typedef {import("../net/net.js").All} All */
/** @typedef {import("../net/net.js").Net} Net */
/** @typedef {import("./state.js").Data} Data */
/** @typedef {import("./state.js").Next} Next */
/**
 * Steps that come to a value.
 * @template T
 * @typedef {import("../util/tasks.js").Steps<T>} Steps
 */
/** Of rows of so many bytes at most, some 10,000, all is drawn in one step. */
const SMALL = 2 ** 20;

/**
 * Draws the page of these texts and options, and shows what it did before until all is read. What
 * the reader chose stays. `read` are the columns of the rows, where they are made already.
 * @param {Data} data
 * @param {import("../net/table-reader.js").Read | null} read
 */
export async function show(data, read = null) {
  page.next = { data, read, all: null };
  await refresh();
}
/** Draws all anew, for the part of the time that is shown. What is given up ends with the next. */
export function refresh() {
  return page.drawn = page.next ? draw(page.turn = {}, page.next) : undefined;
}
/**
 * @param {object} turn
 * @param {Next} next
 * @returns {Promise<void>}
 */
async function draw(turn, next) {
  const steps = drawing(next);
  if (next.data.rows.length <= SMALL) return atOnce(steps);
  await inSlices(steps, () => page.turn === turn);
  return page.turn === turn ? undefined : page.drawn;
}
/**
 * What is read of the next texts.
 * @param {Next} next
 * @returns {Steps<All>}
 */
function* readAll({ data, read }) {
  const rows = new Rows(read || (yield* columnsOf(data.rows)));
  return yield* allOf(rows, yield* messagesOf(data.messages), data.gap);
}
/**
 * The steps of a drawing.
 * @param {Next} next
 * @returns {Steps<void>}
 */
function* drawing(next) {
  const all = next.all ||= yield* readAll(next), { hours } = page.choices;
  const since = hours ? presentOf(next) - hours * 3600 : -Infinity;
  const net = yield* netOf(all, since);
  turnTo({ data: next.data, all, net });
  drawAbout();
  drawLooked();
  drawNews();
  drawOne(true);
  holdClock();
  sift(true);
  yield;
  drawLists();
  widgets().form.draw();
}
/**
 * From when to when transmissions were heard, or will be where the page goes on; undefined for
 * none.
 * @param {All} all
 */
const spanOf = ({ rows, end }) => rows.length
  ? { begin: rows.first[rows.order[0]], end: Math.max(end, view.now) } : undefined;
/**
 * From now on the page has this.
 * @param {import("./state.js").Shown} shown
 */
function turnTo(shown) {
  const { data, all, net } = shown, { settings } = page, { map, layers: { stations } } = widgets();
  const fresh = page.shown?.data !== data;
  page.shown = shown;
  byId("title").textContent = document.title = data.title;
  // a message, or who is in need, may be of before the part of the time that is shown
  settings.dated = datedBy([net.begin, net.end, ...[...net.messages, ...net.bulletins]
    .map(it => it.first), ...net.whole.needy.map(it => all.rows.last[it.lastUrgent] ?? NaN)],
  settings);
  if (fresh) {
    const span = spanOf(all);
    openMarks(data.title, data.marks || "", drawMarks, span?.begin);
    readBrought();
    page.own.open(data.title, data.lines, span);
  }
  nameThings(net);
  stations.placed = net.placed;
  map.refit();
  colour();
  stations.picked = net.things.some(it => it.key === page.picked) ? page.picked : null;
  byId("net").hidden = !all.rows.length;
  byId("controls").hidden = !all.rows.length && !page.follows;
}
/** Colours the map as the reader chose, or else as so many things need; says what colours mean. */
export function colour() {
  const { net } = shownNow(), { layers: { stations } } = widgets();
  stations.colouring = new Colouring(page.choices.colours || wayFor(net.placed.length),
    { receivers: net.receivers, silent: view.silent });
  stations.recolour();
  byId("legend").replaceChildren(...stations.colouring.legend.map(it =>
    make("span", {}, make("span", { className: `key c-${it.colour}` }), it.text)));
}
const drawRoster = () => widgets().lists.roster.show(
  expectedOf(page.roster.list, shownNow().net.whole.stations, callsBefore()), true);
/** Draws who heard and who repeated whom anew. */
export function drawRepeats() {
  const { all, net } = shownNow();
  later("pairs", drawPairs(all, net));
}
/** Draws what marks have a part in, where one is new or taken back. */
export function drawMarks() {
  if (!page.shown) return;
  const { net } = page.shown, { lists } = widgets();
  page.settings.names = new Names(page.roster.list, callsBefore());
  nameThings(net);
  drawNews();
  drawOne(true);
  sift(true);
  lists.messages.show(inOrder(net.messages, view), true);
  drawRoster();
}
/**
 * Gives stations the names by which they are known.
 * @param {Net} net
 */
function nameThings(net) {
  for (const it of net.things)
    if (it.kind === "station" && it.name) it.label = page.settings.names.shown(it.name);
}
function drawLists() {
  const { net, all } = shownNow(), { lists } = widgets();
  lists.messages.show(inOrder(net.messages, view), true);
  byId("bulletins-head").hidden = byId("bulletins-box").hidden = !net.bulletins.length;
  lists.bulletins.show([...net.bulletins].sort((a, b) => b.last - a.last), true);
  byId("roster").hidden = !page.roster.list.length;
  drawRoster();
  byId("passes").hidden = !page.points.length;
  if (page.points.length) later("passed", drawPassed(net));
  later("receivers", once(() => lists.receivers.show(net.receivers, true)));
  write("compared", net.receivers.length > MOST_COMPARED
    ? `Those of the ${MOST_COMPARED} that heard most are compared.` : "");
  later("pairs", drawPairs(all, net));
  later("find", madeHays(net.things));
}
/**
 * Draws who passed each checkpoint.
 * @param {Net} net
 * @returns {Steps<void>}
 */
function* drawPassed(net) {
  const { points, settings } = page, of = { points, settings }, { lists } = widgets();
  const passed = yield* passedOf(net.placed, points), { visits } = passed;
  lists.passed = passedList(byId("passed-box"), visits, of, key => pick(key));
  lists.passed.show(linesOf(visits, settings));
  lists.visits = visitList(byId("visits-box"), of);
  lists.visits.show(turnsOf(visits));
  write("passed-told", passedWords(passed, of));
}
/**
 * Draws who heard and who repeated whom, and after them when, which has the same sums.
 * @param {All} all
 * @param {Net} net
 * @returns {Steps<void>}
 */
function* drawPairs({ rows }, net) {
  const { heard, alone, repeated, sent } = yield* hearings(rows, net.since), { lists } = widgets();
  const { repeats } = shownNow().data, isWhole = repeats !== undefined && net.since === -Infinity;
  const copies = isWhole ? "all copies that were heard" : "the last copy of each";
  lists.heard = pairList(byId("heard-box"), { id: "heard",
    caption: "how many transmissions each receiver heard", pairs: heard, sent,
    tell: (source, name, n, of) =>
      `${shareText(n, of)}, ${alone.get(source, name)} by no other` });
  yield;
  lists.repeated = pairList(byId("repeated-box"), { id: "repeated",
    caption: `how many transmissions each digipeater repeated, by ${copies}`,
    pairs: isWhole ? repeatsOf(repeats) : repeated, sent,
    tell: (before, name, n) => `${name} repeated ${n} of ${before}` });
  write("repeated-told", `Counted by ${copies}.`);
  yield;
  lists.timeline = yield* timelineList(byId("timeline-box"), rows, net,
    { sent, clock: page.settings });
}
