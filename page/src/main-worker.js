// @ts-check
// What a worker of the page does: it runs the module and reads rows into columns, so that the page
// doesn't stand still.

import { saidIn } from "./net/book-slices.js";
import { columnsOf } from "./net/table-reader.js";
import { atOnce } from "./util/tasks.js";
import { messageOf } from "./util/text.js";
import { bytesIn, GONE } from "./worker/sources.js";
import { FUNCTIONS, run } from "./worker/wasm-host.js";

/** @typedef {import("./worker/pool.js").Got} Got */
/** @typedef {import("./worker/pool.js").Asked} Asked */
/** @type {WebAssembly.Module | null} */
let core = null;
const NOTHING = new Uint8Array();
/**
 * The bytes of inputs, or which of them can't be read.
 * @param {import("./worker/sources.js").Source[]} inputs
 */
async function readAll(inputs) {
  /** @type {Uint8Array[]} */
  const all = [];
  for (const [input, it] of inputs.entries()) {
    const bytes = await bytesIn(it).catch(() => null);
    if (!bytes) return { all, input };
    all.push(bytes);
  }
  return { all, input: -1 };
}
/** Frees an input, which the page has too: large ones would be there three times. */
const letGo = (/** @type {Uint8Array} */ { buffer }) =>
  /** @type {ArrayBuffer & { transfer: (size: number) => void }} */ (buffer).transfer(0);
/**
 * What a run gives, of the rows of a table their columns too; and the buffers in it that need not
 * be copied.
 * @param {WebAssembly.Module} module
 * @param {Asked} asked
 * @returns {Promise<[Got, ArrayBufferLike[]]>}
 */
async function answer(module, { command, options, inputs, keeps }) {
  const table = `table ${command}`, isTable = Object.hasOwn(FUNCTIONS, table);
  const { all, input } = await readAll(inputs);
  if (input >= 0)
    return [{ status: 1, input, line: 0, written: 0, fault: GONE, bytes: NOTHING }, []];
  /** @type {Got} */
  const got = run(module, isTable ? table : command, options, all, keeps ? undefined : letGo);
  const buffers = [got.bytes.buffer];
  if (keeps) {
    got.inputs = all;
    buffers.push(...all.map(it => it.buffer));
  }
  if (command === "rows" && !got.status) {
    got.read = atOnce(columnsOf(got.bytes));
    buffers.push(...Object.values(got.read.columns).map(it => it.buffer));
    got.said = keeps && saidIn(all[0], got.read.columns) || undefined;
    if (got.said) buffers.push(got.said.buffer);
  }
  return [got, buffers];
}
/** @typedef {[number, "load", WebAssembly.Module] | [number, "run", Asked]} Question */
/**
 * What a worker has of its own, which isn't what a page has.
 * @typedef {{ onmessage: ((event: MessageEvent<Question>) => void) | null,
 *   postMessage: (answer: unknown[], buffers?: ArrayBufferLike[]) => void }} Scope
 */
const worker = /** @type {Scope} */ (/** @type {unknown} */ (globalThis));
worker.onmessage = async (/** @type {MessageEvent<Question>} */ { data }) => {
  const [id] = data;
  try {
    if (data[1] === "load") {
      core = data[2];
      return worker.postMessage([id, true, ""]);
    }
    if (!core) throw new Error("no module was loaded");
    const [got, buffers] = await answer(core, data[2]);
    worker.postMessage([id, got, ""], buffers);
  } catch (fault) {
    worker.postMessage([id, null, messageOf(fault)]);
  }
};
