// What the modules that read logs ask of the page and of a browser, by hand: workers run the
// stand-in for the module. It stands before those modules in a test.
import "./timers.js";
import { resolveObjectURL } from "node:buffer";
import { bytesIn } from "../../page/src/worker/sources.js";
import { run } from "../browser/stand_in.js";

/**
 * How many milliseconds a run takes, by its command, and what it gives where that is another; where
 * that has `stops`, the worker stops so.
 */
export const stand = { wait: command => 0, answer: given => null };
/** Calls `run` with other answers, or slow ones, of the workers. */
export async function answering(of, run) {
  const before = { ...stand };
  Object.assign(stand, of);
  await run().finally(() => Object.assign(stand, before));
}

async function answerOf({ command, options, inputs: given, keeps }) {
  const inputs = await Promise.all(given.map(bytesIn));
  const isTable = command === "rows" || command === "messages";
  const got = run(null, isTable ? `table ${command}` : command, options, inputs);
  return keeps ? { ...got, inputs } : got;
}
class Worker {
  async postMessage([id, what, given]) {
    await new Promise(done => setTimeout(done, what === "run" ? stand.wait(given.command) : 0));
    const value = what === "load" ? true : stand.answer(given) || await answerOf(given);
    if (value.stops) this.onerror({ message: value.stops });
    else this.onmessage({ data: [id, value, ""] });
  }
  terminate() {}
}
/** What was saved: names, and what. */
export const saved = [];
/** An element of the page: a link of it saves what is behind it. */
class Node {
  dataset = {};
  append() {}
  setAttribute() {}
  click() {
    saved.push([this.download, resolveObjectURL(this.href)]);
  }
}
Object.assign(globalThis, { Worker, document: { createElement: () => new Node() } });
Object.defineProperty(globalThis, "navigator", { value: { hardwareConcurrency: 2 },
  configurable: true });

export const bytesOf = text => Uint8Array.from(text, it => it.charCodeAt(0));
export const textOf = bytes => Buffer.from(bytes).toString("latin1");
/** A line of a log, by its clock and its receiver. */
export const line = (clock, receiver) =>
  `2024-06-21T${clock}Z ${receiver} c00082a0a4a64040e0a262824040406103f03e6869c0\n`;
