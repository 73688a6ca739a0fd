// @ts-check
// Workers, each with the module: a run is given to one that is free.

import { limits, sizeOf, sizeOfAll } from "./sources.js";

/** @typedef {import("./sources.js").Source} Source */
/**
 * What a run gives: its status, which input and line it refused and why, and what it wrote; of
 * the rows of a table their columns too. `inputs` are the bytes of what was lent, or of files, and
 * `said` is the book of what tells of messages in a book that is kept.
 * @typedef {import("./wasm-host.js").Run & { read?: import("../net/table-reader.js").Read,
 *   inputs?: Uint8Array[], said?: Uint8Array }} Got
 */
/**
 * A run that is asked for: a command of the program, or `rows` or `messages`, which gives a table.
 * What it gives back are the bytes of the inputs, where it `keeps` them.
 * @typedef {{ command: string, options: import("./wasm-host.js").Options, inputs: Source[],
 *   keeps: boolean }} Asked
 */
/** @typedef {{ it: Worker, busy: number, large: number, began: boolean }} Hand */

/** @type {Hand[]} */
const hands = [];
/**
 * What is asked, by numbers: of which worker, and who waits for what comes of it.
 * @type {Map<number, { hand: Hand, done: (value: any) => void, fail: (fault: Error) => void }>}
 */
const asked = new Map();
/** @type {(() => void)[]} */
const queue = [];
let last = 0;
/** So many bytes are copied without a pause. */
const PIECE = 2 ** 23;
/**
 * How many milliseconds it takes at most until the memory of a worker is free, which had so many
 * bytes to read.
 * @param {number} size
 */
const leaving = size => 100 + size / 2 ** 21;
/**
 * What workers are made of: their script, the module, and who hears that one stopped.
 * @type {{ script: string, module: WebAssembly.Module | null, onStop: (fault: string) => void }}
 */
const made = { script: "", module: null, onStop: () => {} };
export const aMoment = () => new Promise(done => setTimeout(done));

/** Adds a worker, which loads the module. */
function addWorker() {
  const url = URL.createObjectURL(new Blob([made.script], { type: "text/javascript" }));
  const hand = { it: new Worker(url), busy: 1, large: 0, began: false };
  hand.it.onmessage = ({ data: [id, value, fault] }) => {
    const who = asked.get(id);
    asked.delete(id);
    hand.busy--;
    if (!hand.began) URL.revokeObjectURL(url);
    hand.began = true;
    const answer = () => fault ? who?.fail(new Error(fault)) : who?.done(value);
    if (!hand.large) {
      answer();
      return queue.shift()?.();
    }
    // what is run next mustn't be there beside it
    replace(hand);
    setTimeout(answer, leaving(hand.large));
  };
  hand.it.onerror = ({ message }) => stopped(hand, `a worker stopped: ${message}`);
  hands.push(hand);
  return ask(hand, "load", made.module);
}
/** @param {Hand} hand */
function replace(hand) {
  hand.it.terminate();
  hands.splice(hands.indexOf(hand), 1);
  addWorker().catch(fault => made.onStop(fault.message));
}
/**
 * A worker answers no more: nobody waits for it, and another one takes its place.
 * @param {Hand} hand
 * @param {string} why
 */
function stopped(hand, why) {
  const own = [...asked].filter(([, it]) => it.hand === hand);
  for (const [id, { fail }] of own) {
    asked.delete(id);
    fail(new Error(why));
  }
  // one that can't even begin isn't made again and again
  if (hand.began) replace(hand);
  else made.onStop(why);
}
/**
 * A worker did nothing of what it was to do.
 * @param {Hand} hand
 */
function letGo(hand) {
  hand.busy--;
  queue.shift()?.();
}
/**
 * Asks a worker, which is busy already.
 * @param {Hand} hand
 * @param {string} what
 * @param {any} given
 * @param {ArrayBuffer[]} buffers
 */
function ask(hand, what, given, buffers = []) {
  return new Promise((done, fail) => {
    asked.set(++last, { hand, done, fail });
    try {
      hand.it.postMessage([last, what, given], buffers);
    } catch (fault) {
      asked.delete(last);
      letGo(hand);
      fail(/** @type {Error} */ (fault));
    }
  });
}
/**
 * Makes workers that run this module.
 * @param {string} script
 * @param {WebAssembly.Module} module
 * @param {(fault: string) => void} onStop
 */
export async function beginWorkers(script, module, onStop) {
  const many = Math.max(2, Math.min(3, navigator.hardwareConcurrency || 2));
  Object.assign(made, { script, module, onStop });
  await Promise.all(Array.from({ length: many }, addWorker));
}
/**
 * Copies, with a pause after some of them, so that the page doesn't stand still for large ones. A
 * worker reads a file itself, and what is lent needs no copy.
 * @param {Source[]} inputs @param {Source[]} lent
 */
async function copiesOf(inputs, lent) {
  const copies = inputs.map(it =>
    it instanceof Blob || lent.includes(it) ? it : new Uint8Array(it.length));
  let left = PIECE;
  for (const [k, it] of inputs.entries())
    for (let at = 0; at < sizeOf(it); at += PIECE) {
      const copy = copies[k];
      if (it === copy || it instanceof Blob || copy instanceof Blob) break;
      if (left <= 0) {
        await aMoment();
        left = PIECE;
      }
      const part = it.subarray(at, at + PIECE);
      copy.set(part, at);
      left -= part.length;
    }
  return copies;
}
/**
 * A run of the module over inputs. Bytes that are lent go to the worker and are gone here; it gives
 * them back, and those of files, where it `keeps` them.
 * @param {string} command @param {number | string[]} options @param {Source[]} inputs
 * @param {{ lent?: Source[], keeps?: boolean }} of
 * @returns {Promise<Got>}
 */
export async function run(command, options, inputs, { lent = [], keeps = false } = {}) {
  let free;
  while (!(free = hands.find(it => !it.busy)))
    await new Promise(done => queue.push(() => done(null)));
  free.busy++;
  // a worker that had much is replaced afterwards, which frees its memory at once
  const size = sizeOfAll(inputs);
  free.large = size > limits.alone ? size : 0;
  // a copy that is handed over takes less time than what a browser copies itself
  const hand = free, copies = await copiesOf(inputs, lent).catch(fault => {
    letGo(hand); // there is no room for them
    throw fault;
  });
  const buffers = copies.flatMap(it => it instanceof Blob ? [] : [it.buffer]);
  return ask(hand, "run", { command, options, inputs: copies, keeps }, buffers);
}
