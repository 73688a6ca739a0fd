// @ts-check
// Small helpers for what stands in the page. All text goes in as text, never as HTML.

import { said } from "./text.js";
import { fullText, isoText, timeText } from "./time.js";

/**
 * @typedef {"choose" | "choose-folder" | "name" | "gap" | "silent" | "follow" | "local" | "miles" |
 *   "sound" | "live" | "bring" | "call" | "origin" |
 *   "other-call" | "corner-0" | "corner-1" | "corner-2" | "clock" | "find" |
 *   "ics-incident" | "ics-net" | "ics-operator" | "ics-by" | "own-at" | "own-from" | "own-id" |
 *   "own-to" | "own-text" | "most"} Input
 */
/** @typedef {"since" | "place-form" | "colours" | "kind"} Select */
/** @typedef {"looked" | "ics-open" | "book" | "event" | "listing" | "history"} Button */
/**
 * The kinds of the page's elements by their names, where they are more than HTML elements.
 * @typedef {Record<Input, HTMLInputElement> & Record<Select, HTMLSelectElement> &
 *   Record<Button, HTMLButtonElement> & Record<"saves" | "adds" | "fold", HTMLDetailsElement> &
 *   { files: HTMLTableElement, progress: HTMLProgressElement }} Kinds
 */
/**
 * An element that the page has by this name.
 * @template {string} Name
 * @param {Name} id
 */
export const byId = id => /** @type {Name extends keyof Kinds ? Kinds[Name] : HTMLElement} */ (
  /** @type {unknown} */ (document.getElementById(id)));
/**
 * The text of an element that the page has by this name.
 * @param {string} id
 */
export const textOf = id => byId(id).textContent || "";

/**
 * Writes a text where another one stands; a screen reader says what is written, the same again too.
 * @param {string} id
 * @param {string} text
 */
export function write(id, text) {
  if (textOf(id) !== text) byId(id).textContent = text;
}
/** @typedef {Node | string | null | undefined} Inside what stands in an element, or nothing */
/**
 * An element with these properties, attributes and parts.
 * @template {keyof HTMLElementTagNameMap} Tag
 * @param {Tag} tag
 * @param {Partial<HTMLElementTagNameMap[Tag]> & { data?: Record<string, string | number>,
 *   aria?: Record<string, string> }} [of]
 * @param {Inside[]} inside
 * @returns {HTMLElementTagNameMap[Tag]}
 */
export function make(tag, of, ...inside) {
  const { data = {}, aria = {}, ...rest } = { ...of }, node = document.createElement(tag);
  Object.assign(node, rest);
  for (const key in data) node.dataset[key] = String(data[key]);
  for (const key in aria) node.setAttribute(key, aria[key]);
  for (const it of inside) if (it !== null && it !== undefined) node.append(it);
  return node;
}
/**
 * A button with these words that runs something, and what says more of it, where something does.
 * @param {string} textContent
 * @param {() => unknown} onclick
 * @param {Partial<HTMLButtonElement> & { data?: Record<string, string | number> }} [of]
 */
export const makeButton = (textContent, onclick, label = "", of = {}) => make("button",
  { type: "button", textContent, onclick, ...label && { aria: { "aria-label": label } }, ...of });
/**
 * What takes the keyboard in an element.
 * @param {HTMLElement} box
 */
const stopsIn = box => [.../** @type {NodeListOf<HTMLElement>} */ (
  box.querySelectorAll("a, button, summary"))];
/**
 * Puts these in place of what stands in an element. Who has the keyboard in it keeps it: in what
 * has the same name, or else in what stands there now, a link before a button, or in the last, or
 * in `rest`.
 * @param {HTMLElement} box
 * @param {(Node | string)[]} nodes
 * @param {(it: HTMLElement) => string} nameOf
 * @param {HTMLElement | null} [rest] is where nothing in it takes the keyboard
 */
export function replaceIn(box, nodes, nameOf, rest = null) {
  const before = /** @type {HTMLElement | null} */ (document.activeElement);
  const name = before && before !== box && box.contains(before) ? nameOf(before) : null;
  const at = before ? stopsIn(box).indexOf(before) : -1;
  box.replaceChildren(...nodes);
  if (name === null) return;
  const stops = stopsIn(box);
  const near = stops.slice(0, at + 1 || 1), links = near.filter(it => it.tagName === "A");
  const after = stops.find(it => nameOf(it) === name) || links.at(-1) || near.at(-1) || rest;
  after?.focus({ preventScroll: true });
}
/** A letter with more marks on it than these would be as wide as all of them, without a font. */
const MARKS = /(?<=\p{M}{4})(?=\p{M})/u;
/**
 * A text off the air: which way it runs, and where it ends, stays its own affair. A letter with
 * very many marks may be broken among them.
 * @param {string} shown
 */
export function air(shown) {
  if (!shown) return "";
  const [first, ...rest] = said(shown).split(MARKS);
  return make("bdi", {}, first, ...rest.flatMap(it => [make("wbr"), it]));
}
/**
 * A text that stands in the page as it is, whichever way it runs.
 * @param {string} text
 */
export const letters = text => make("bdi", { textContent: text });
/**
 * A call, perhaps after a name, as `who` gives it; a line ends between the two alone.
 * @param {string} text
 */
export function callIn(text) {
  const [, name, call] = /^(.* )(\(\S+\))$/s.exec(text) || ["", "", text];
  return make("bdi", {}, name, make("span", { className: "whole", textContent: call }));
}
/** @param {number} seconds @param {import("./time.js").Clock} clock */
export function momentOf(seconds, clock) {
  return make("time", { dateTime: isoText(seconds), title: fullText(seconds, clock),
    textContent: timeText(seconds, clock) });
}
/**
 * @param {keyof SVGElementTagNameMap} tag
 * @param {Record<string, string | number>} attributes
 * @param {(Node | string)[]} inside
 */
export function svg(tag, attributes, ...inside) {
  const node = document.createElementNS("http://www.w3.org/2000/svg", tag);
  for (const key in attributes) node.setAttribute(key, String(attributes[key]));
  node.append(...inside);
  return node;
}
/**
 * Hands a file to the reader, a text or bytes, or several in a list.
 * @param {string} name
 * @param {BlobPart | BlobPart[]} what
 * @param {string} type
 */
export function save(name, what, type) {
  const url = URL.createObjectURL(new Blob(Array.isArray(what) ? what : [what], { type }));
  make("a", { href: url, download: name }).click();
  setTimeout(() => URL.revokeObjectURL(url), 60000);
}
/**
 * Calls `run` once before the next picture, however often it is asked.
 * @param {() => void} run
 */
export function oncePerFrame(run) {
  let asked = false;
  return () => {
    if (asked) return;
    asked = true;
    requestAnimationFrame(() => {
      asked = false;
      run();
    });
  };
}

/** What the reader chose stands in the address after #, where it outlives loading again. */
export const chosen = new URLSearchParams(globalThis.location?.hash.slice(1) || "");
/** @param {string} key @param {string} value nothing takes it away */
export function choose(key, value) {
  if ((chosen.get(key) ?? "") === value) return;
  if (value === "") chosen.delete(key);
  else chosen.set(key, value);
  try {
    history.replaceState(null, "", "#" + chosen);
  } catch {
    // a browser takes so many changes in a while; the next one goes through
  }
}
/**
 * What the reader chose for each page, which the browser keeps where it can.
 * @param {string} key
 * @param {string} value
 */
export function keep(key, value) {
  choose(key, value);
  try {
    localStorage.setItem(`aprsbook ${key}`, value);
  } catch {
    // it is forbidden here; the address has it
  }
}
/**
 * What was kept; the address comes first.
 * @param {string} key
 */
export function kept(key) {
  if (chosen.has(key)) return chosen.get(key) || "";
  try {
    return localStorage.getItem(`aprsbook ${key}`) || "";
  } catch {
    return "";
  }
}
