// @ts-check
// What is known of a station's alarms: whether it is in need or silent, whether it is awaited, and
// under which call it goes on.

import { dealtNodes } from "./dealt-mark.js";
import { GONE } from "./stations.js";
import { homeOf, needOf, otherCallOf, silenceOf } from "../net/alarms.js";
import { momentOf } from "../util/dom.js";
import { printable, said } from "../util/text.js";

/** @typedef {import("../net/things.js").Thing} Thing */
/** @typedef {import("./station-facts.js").Fact} Fact */
/** @typedef {import("./dealt-mark.js").Marking} Marking */
/**
 * What has to be known of the page for that, and the call that each had before.
 * @typedef {Marking & { isLongAgo: (heardAt: number) => boolean, before: Map<string, string>,
 *   settings: import("../net/settings.js").Settings }} View
 */
/**
 * The alarms of a station, each with its mark or what sets one.
 * @param {Thing} it @param {View} view
 * @returns {Fact[]}
 */
export function markFacts(it, view) {
  if (it.kind !== "station") return [];
  /** @type {Fact[]} */
  const facts = [], { settings, before, markOf } = view, name = settings.names.shown(it.name);
  if (it.urgent)
    facts.push(["in need", "since ", momentOf(it.needSince, settings),
      ...dealtNodes(needOf(it), `${name} in need`, view)]);
  if (view.isLongAgo(it.heardAt))
    facts.push(["silent", ...dealtNodes(silenceOf(it), `${name} silent`, view)]);
  facts.push(["awaited", ...dealtNodes(homeOf(it.name), name, view, [GONE])]);
  const other = markOf(otherCallOf(it.name)), old = before.get(it.name);
  if (other)
    facts.push(["goes on as", printable(other.note), ...dealtNodes(otherCallOf(it.name),
      `${name} goes on as ${printable(other.note)}`, view)]);
  if (old) facts.push(["was", said(old)]);
  return facts;
}
