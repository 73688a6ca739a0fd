// @ts-check
// Long work in steps, which generators are, so that the page never stands still for long.

/** So many milliseconds the page works before the browser may do what else there is. */
export const SLICE = 20;
/** After so many rows there is a step. */
export const STEP = 4096;

/**
 * Steps that come to a value.
 * @template T
 * @typedef {Generator<unknown, T>} Steps
 */
/**
 * Calls `run` with each part of a list.
 * @template T
 * @param {ArrayLike<T>} numbers
 * @param {(it: T) => void} run
 * @returns {Steps<void>}
 */
export function* each(numbers, run) {
  for (let at = 0; at < numbers.length; at++) {
    run(numbers[at]);
    if (at % STEP === STEP - 1) yield;
  }
}
/**
 * Calls `run` with the number of each row that was heard last at a moment or later, in the order of
 * the table: what lies side by side is read side by side, in a third of the time.
 * @param {{ last: Float64Array, length: number }} rows
 * @param {number} since
 * @param {(k: number) => void} run
 * @returns {Steps<void>}
 */
export function* eachSince({ last, length }, since, run) {
  for (let begin = 0; begin < length; begin += STEP) {
    const end = Math.min(length, begin + STEP);
    if (since === -Infinity) for (let k = begin; k < end; k++) run(k);
    else for (let k = begin; k < end; k++) if (last[k] >= since) run(k);
    yield;
  }
}
/**
 * A single step.
 * @param {() => void} run
 * @returns {Steps<void>}
 */
export function* once(run) {
  run();
}
/**
 * The pieces of a text, with pauses, so that the page doesn't stand still.
 * @param {Iterable<string>} pieces
 * @returns {Steps<string[]>}
 */
export function* gathered(pieces) {
  const all = [];
  for (const it of pieces) {
    all.push(it);
    yield;
  }
  return all;
}
/**
 * Takes all steps, and gives what they come to.
 * @template T
 * @param {Steps<T>} steps
 */
export function atOnce(steps) {
  for (;;) {
    const it = steps.next();
    if (it.done) return it.value;
  }
}
/**
 * Takes steps for as long as `goOn` says so; gives what they come to, or nothing where it stopped.
 * @template T
 * @param {Steps<T>} steps
 * @param {() => boolean} goOn
 * @returns {Promise<T | undefined>}
 */
export async function inSlices(steps, goOn) {
  while (goOn()) {
    const until = performance.now() + SLICE;
    do {
      const it = steps.next();
      if (it.done) return it.value;
    } while (performance.now() < until);
    await new Promise(done => setTimeout(done));
  }
  return undefined;
}
