// A browser's window by jsdom (Debian: node-jsdom), for tests of what is drawn: the page's own
// shell, a map of 600 by 400 pixels, and a pen that keeps what it was told. It stands before the
// modules that draw; `skip` says why there is none.
import "./timers.js";
import fs from "node:fs";
import Module, { createRequire } from "node:module";

const ASSETS = new URL("../../page/assets/", import.meta.url);
/** Where Debian has libraries of Node. */
const LIBRARIES = "/usr/share/nodejs";

function jsdomOf() {
  process.env.NODE_PATH ||= LIBRARIES;
  Module._initPaths();
  try {
    return createRequire(import.meta.url)("jsdom");
  } catch {
    return null;
  }
}
/** A pen that keeps its calls, each with the colours and widths that it had then. */
class Pen {
  constructor() {
    this.calls = [];
    Object.assign(this, { fillStyle: "", strokeStyle: "", lineWidth: 1, globalAlpha: 1, font: "" });
    for (const op of ["clearRect", "fillRect", "beginPath", "moveTo", "lineTo", "arc", "rect",
      "closePath", "fill", "stroke", "save", "restore", "translate", "scale", "rotate",
      "setLineDash", "setTransform", "drawImage", "fillText", "strokeText"])
      this[op] = (...args) => {
        // a canvas passes over a place that is no number, and nothing else would say so
        if (args.some(it => typeof it === "number" && !Number.isFinite(it)))
          throw new Error(`${op}(${args.join(", ")})`);
        const { fillStyle, strokeStyle, lineWidth, globalAlpha, font } = this;
        this.calls.push({ op, args, fillStyle, strokeStyle, lineWidth, globalAlpha, font });
      };
  }
  measureText(text) {
    return { width: 6 * text.length };
  }
  /** The calls of an operation. */
  of(op) {
    return this.calls.filter(it => it.op === op);
  }
  /** The texts that were written, and where. */
  get texts() {
    return this.of("fillText").map(it => it.args);
  }
}
export const pen = new Pen();
const jsdom = jsdomOf();
export const skip = jsdom ? false : "needs jsdom (Debian: node-jsdom)";

/** So many sheets of the form are in view. */
export const IN_VIEW = 4;
const NONE = { TITLE: "APRS net", STYLE: "", POLICY: "", CONNECT: "", FILES: "", FOOTER: "",
  PARTS: "", COAST: "", SCRIPT: "" };
/** The shell with these data, and the fields of the page that reads logs where `reads` says so. */
const htmlOf = (data, reads) => fs.readFileSync(new URL("shell.html", ASSETS), "utf8")
  .replace(/@([A-Z]+)@/g, (_, name) => ({ ...NONE, DATA: data && JSON.stringify(data),
    FILES: reads ? fs.readFileSync(new URL("files.html", ASSETS), "utf8") : "" })[name] ?? "");
/**
 * Opens a page of these data, or of none: from now on `document` and what else a browser has are
 * its own.
 */
export function open(data, { hash = "", reads = false } = {}) {
  const dom = new jsdom.JSDOM(htmlOf(data, reads), { url: `http://localhost/event.html${hash}`,
    pretendToBeVisual: true });
  const { window } = dom, { prototype } = window.HTMLElement;
  window.HTMLCanvasElement.prototype.getContext = () => pen;
  const own = prototype.getBoundingClientRect;
  prototype.getBoundingClientRect = function box() {
    return this.id === "map" ? { left: 0, top: 0, width: 600, height: 400 } : own.call(this);
  };
  prototype.scrollIntoView = () => {};
  window.matchMedia = () => ({ matches: false, addEventListener() {} });
  // the first few of what is observed are in view
  globalThis.IntersectionObserver = class {
    constructor(run) { Object.assign(this, { run, seen: 0 }); }
    observe(target) { this.run([{ target, isIntersecting: this.seen++ < IN_VIEW }]); }
    disconnect() {}
  };
  window.ResizeObserver = class { constructor(run) { this.run = run; } observe() { this.run(); } };
  window.Path2D = class { constructor(d) { this.d = d; } };
  // colours have the names that the style has
  window.getComputedStyle = () => ({ getPropertyValue: name => name.slice(2) });
  for (const name of ["document", "location", "localStorage", "sessionStorage", "history", "Node",
    "DOMParser", "Element", "HTMLElement", "HTMLInputElement", "Event", "KeyboardEvent",
    "MouseEvent", "matchMedia", "ResizeObserver", "Path2D", "getComputedStyle", "navigator"])
    Object.defineProperty(globalThis, name, { value: window[name], configurable: true });
  for (const name of ["addEventListener", "removeEventListener", "dispatchEvent",
    "requestAnimationFrame"])
    globalThis[name] = window[name].bind(window);
  globalThis.window = window;
  globalThis.devicePixelRatio = 1;
  return window;
}
export const byId = id => document.getElementById(id);
/** The texts of what is found. */
export const textsOf = selector =>
  [...document.querySelectorAll(selector)].map(it => it.textContent);
/** Writes or chooses something, as the reader does. */
export function enter(id, value, kind = "change") {
  const field = byId(id);
  if (typeof value === "boolean") field.checked = value;
  else field.value = value;
  field.dispatchEvent(new Event(kind, { bubbles: true }));
}
/** Waits until something is so; gives up after 20 seconds. */
export async function until(isSo) {
  for (const end = Date.now() + 20000; !isSo() && Date.now() < end;)
    await new Promise(done => setTimeout(done, 20));
}
