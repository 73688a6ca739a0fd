// @ts-check
// The page of an event begins with the data that stand in it.

import { alive, beginAlive, tick } from "./app/live.js";
import { beginClock } from "./app/playback.js";
import { refresh, show } from "./app/render.js";
import { begin } from "./app/setup.js";
import { dataIn, page, shownNow, widgets } from "./app/state.js";
import { savedText, SAVES } from "./formats/exports.js";
import { tableOf, textsOf } from "./net/table-lines.js";
import { textOf } from "./util/dom.js";

begin();
if (textOf("data").trim())
  show(dataIn(textOf("data"))).then(() => {
    beginClock();
    widgets().form.reopen();
    if (shownNow().data.live) beginAlive();
  });
// for tests
globalThis.aprsbook = Object.freeze({ page, show, refresh, SAVES, alive, tick, tableOf, textsOf,
  get data() { return page.shown?.data; }, get net() { return page.shown?.net; },
  get all() { return page.shown?.all; }, ...page.widgets,
  savedText: (/** @type {string} */ name) => savedText(name, shownNow().net, shownNow().data,
    { lines: page.own.lines, names: page.settings.names }) });
