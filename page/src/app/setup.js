// @ts-check
// Makes the map, the lists and the form into which the page is drawn, with what was chosen before.

import { isMute } from "./alarm-sound.js";
import { listenToControls } from "./controls.js";
import { hearTabs } from "./dealt.js";
import { reveal } from "./reveal.js";
import { drawSaves, saveNow } from "./save-menu.js";
import { pick } from "./selection.js";
import { page, presentOf, tell, view, widgets } from "./state.js";
import { spotText } from "../geo/coordinate-formats.js";
import { Form } from "../ics309/form.js";
import { placeList } from "../lists/detail-panel.js";
import { frameList } from "../lists/frames.js";
import { bulletinList, messageList } from "../lists/messages.js";
import { receiverList, rosterList, thingList } from "../lists/stations.js";
import { TileSources } from "../map/layers/tile-sources.js";
import { NetMap } from "../map/map.js";
import { byId, choose, chosen, kept, write } from "../util/dom.js";
import { count } from "../util/text.js";
import { inOrder, makeLayers } from "./map-layers.js";

/** What the map covers where it fills the window; the news stand above it. */
const BEHIND = ".files, #looked, #controls, #beside, footer";
/** @param {boolean} full */
function fillWindow(full) {
  document.body.classList.toggle("full", full);
  for (const it of document.querySelectorAll(BEHIND)) it.toggleAttribute("inert", full);
  byId("fill").setAttribute("aria-pressed", String(full));
  byId("fill").textContent = full ? "leave the window" : "fill the window";
}
/** Says how many places are far from all others, and not in view. */
function tellFar() {
  const { far = 0, fitted = false } = page.widgets?.map ?? {};
  write("far", fitted && far
    ? `${count(far, "place")} far from the others not in view; “all” shows all.` : "");
}
/**
 * Says what the squares of the map mean, in place of what colours mean.
 * @param {string} text
 */
function tellDense(text) {
  write("dense", text);
  byId("legend").hidden = text !== "";
}
/** Says what is measured. */
function tellWay() {
  const { map, layers: { measure } } = widgets();
  byId("way").textContent = measure.way.text(page.settings);
  byId("measure").setAttribute("aria-pressed", String(measure.isOn));
  map.node.classList.toggle("measures", measure.isOn);
  map.paintSoon();
}
function makeMap() {
  const layers = makeLayers({ onPick: key => pick(key, true), onDense: tellDense,
    onMeasure: tellWay });
  const { measure } = layers;
  layers.stations.present = () => presentOf(page.shown);
  const map = new NetMap(byId("map"), inOrder(layers), { settings: () => page.settings,
    keys: { m: () => measure.turn(!measure.isOn), Backspace: () => measure.back() },
    onFill: fillWindow, onFit: tellFar, onColours: () => layers.stations.recolour(),
    onSpot: vector => { byId("spot").textContent = vector ? spotText(vector) : ""; },
    onView(text) {
      choose("view", text);
      tellFar();
    } });
  layers.coast.land.read(byId("coast").textContent || "").then(map.paintSoon);
  return { map, layers };
}
/** Says that the sound isn't heard, as in a page that was loaded again and not touched since. */
const tellMute = () => write("mute", page.alarm.isOn && isMute()
  ? "(not heard before you click here or press a key)" : "");
/**
 * Puts what was chosen before into a field of choices; gives what it is where the field has that.
 * @param {"since" | "colours" | "place-form" | "kind"} id
 * @param {string} value
 */
function put(id, value) {
  const field = byId(id);
  field.value = value;
  if (field.selectedIndex < 0) field.selectedIndex = 0;
  return field.value;
}
/** What the reader chose before. */
function readChoices() {
  const { choices, settings } = page, of = (/** @type {string} */ key) => chosen.get(key) || "";
  page.picked = of("pick") || null;
  choices.hours = Number(put("since", of("since") || "0"));
  choices.colours = /** @type {import("../map/colours.js").Way | ""} */ (
    put("colours", of("colours")));
  choices.find = byId("find").value = of("find");
  choices.kind = put("kind", of("kind"));
  settings.form = /** @type {import("../geo/coordinate-formats.js").Form} */ (
    put("place-form", kept("form")));
  settings.local = byId("local").checked = of("time") === "local";
  settings.miles = byId("miles").checked = kept("miles") === "on";
  choices.call = byId("call").value = kept("call");
  choices.origin = byId("origin").value = kept("origin");
  page.alarm.turn(byId("sound").checked = of("sound") === "on", false);
  tellMute();
  for (const kind of ["pointerup", "keyup"]) addEventListener(kind, tellMute);
}
const makeLists = () => ({
  messages: messageList(byId("messages-box"), view, key => reveal({ key })),
  bulletins: bulletinList(byId("bulletins-box"), view),
  things: thingList(byId("things-box"), view, pick),
  places: placeList(byId("one-places"), view), frames: frameList(byId("one-frames"), view),
  receivers: receiverList(byId("receivers-box"), view),
  roster: rosterList(byId("roster-box"), view, key => reveal({ key })),
});
/** Makes what is drawn into. */
export function begin() {
  const { map, layers } = makeMap();
  const form = new Form(page, { now: () => presentOf(page.shown),
    save: () => saveNow("messages (CSV)", "ics-309.csv") });
  const sources = new TileSources(layers, { tell, paintSoon: map.paintSoon });
  readChoices();
  map.look(chosen.get("view") || "");
  page.widgets = { map, layers, form, sources, lists: makeLists() };
  drawSaves();
  listenToControls();
  hearTabs();
}
