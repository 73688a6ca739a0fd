// @ts-check
// Which station, object or item is picked.

import { callsBefore } from "./dealt.js";
import { page, shownNow, view, widgets } from "./state.js";
import { drawPanel } from "../lists/detail-panel.js";
import { placeIn } from "../map/layers/image-overlay.js";
import { otherCallOf } from "../net/alarms.js";
import { byId, choose, keep } from "../util/dom.js";

const { markOf, onDeal, onUndo, isLongAgo } = view;
const panelView = { markOf, onDeal, onUndo, isLongAgo };
/**
 * The place from which distances are told: degrees that the reader wrote, or where the station or
 * the thing is that he named; null where that is none.
 * @returns {import("../lists/detail-panel.js").Origin | null}
 */
function originNow() {
  const text = page.choices.origin.trim(), { net } = shownNow();
  if (!text) return null;
  const named = net.things.find(it => it.name.toUpperCase() === text.toUpperCase() && it.now);
  if (named?.now) return { name: named.label, vector: named.now.vector };
  try {
    return { name: text, vector: placeIn(text) };
  } catch {
    return null;
  }
}
/** Takes a place from which distances are told, and says where it is none. */
export function takeOrigin(/** @type {string} */ text) {
  keep("origin", page.choices.origin = text);
  byId("origin").value = text;
  byId("origin").setCustomValidity(!text.trim() || originNow() ? ""
    : "degrees north and east, such as 54.5, -3.5, or what was heard with a place");
  drawOne(true);
}
/** Has the station that is picked go on under another call. */
export function takeOtherCall() {
  const field = byId("other-call"), call = field.value.trim().toUpperCase().replace(/-0$/, "");
  const thing = thingOf(page.picked);
  if (call && thing && call !== thing.name) view.onDeal(otherCallOf(thing.name), call);
  field.value = "";
}
const thingOf = (/** @type {string | null} */ key) =>
  shownNow().net.things.find(it => it.key === key);
/** Whether lists stand beside the map, in a box that scrolls, and not below it. */
const isBeside = () => getComputedStyle(byId("beside")).overflowY === "auto";
/** Brings what is told of it into view; where that stands below the map, a part of the map too. */
export function showOne() {
  const [box, one] = [byId("beside"), byId("one")];
  if (!isBeside()) return one.scrollIntoView({ block: "start" });
  box.scrollTop += one.getBoundingClientRect().top - box.getBoundingClientRect().top;
}
/**
 * Picks a thing, or, where it is picked already, nothing. Where it wasn't picked on the map, the
 * map comes into view; its row in the table is marked.
 * @param {string | null} key
 */
export function pick(key, onMap = false) {
  page.from = page.picked && page.picked !== key ? page.picked : page.from;
  page.picked = page.picked === key ? null : key;
  if (!page.picked) page.from = null;
  choose("pick", page.picked || "");
  const { map, lists, layers: { stations } } = widgets();
  Object.assign(stations, { picked: page.picked, from: page.from });
  const thing = thingOf(page.picked);
  if (thing?.now) map.reach(thing.now.vector);
  drawOne();
  lists.things.mark(page.picked, onMap);
  if (thing?.now && !onMap) byId("map").scrollIntoView({ block: "nearest" });
  // beside the map the list stays where it is, as does a map above what is told
  if (thing && onMap === isBeside()) showOne();
  map.paintSoon();
}
/** What is known of the thing that is picked; its lists stay where they are in another drawing. */
export function drawOne(stays = false) {
  const thing = thingOf(page.picked), { all, net } = shownNow(), { lists } = widgets();
  const numbers = drawPanel(thing, { all, net, from: thingOf(page.from),
    view: { ...panelView, settings: page.settings, before: callsBefore(), origin: originNow() } });
  if (!thing) return;
  lists.places.show([...thing.placedBy].reverse(), stays);
  lists.frames.show(numbers.reverse(), stays);
}
