// @ts-check
// The host of the module: it makes an instance for each run, as a shell starts the program anew. It
// has to keep to what the functions of the module ask for: all that it hands over lies from
// __heap_base on, no two of it in one place, and the region begins at a multiple of 16.

/**
 * What a command takes beside inputs: a gap in seconds for merge, show, history, tables and widen;
 * for convert capture the name of a receiver and a moment.
 * @typedef {number | string[] | null | undefined} Options
 */
/**
 * What a run gives: its status, which input and line it refused and why, how much it wrote, and
 * what.
 * @typedef {{ status: number, input: number, line: number, written: number, fault: string,
 *   bytes: Uint8Array }} Run
 */
/** @typedef {WebAssembly.Memory & { grow(pages: number | bigint): number }} Memory in 64 bits */
/**
 * What the module gives away.
 * @typedef {{ memory: Memory, __heap_base: WebAssembly.Global } &
 *   Record<string, (...of: bigint[]) => void>} Exports
 */
/**
 * The commands of the program, by the functions of the module that do them.
 * @type {Record<string, string>}
 */
const FUNCTIONS = {
  check: "aprs_check", "convert text": "aprs_text", "convert kind": "aprs_kind",
  "convert kiss": "aprs_kiss", "convert log": "aprs_log", "convert capture": "aprs_capture",
  merge: "aprs_merge", show: "aprs_show", history: "aprs_history", widen: "aprs_widen",
  "table rows": "aprs_table", "table messages": "aprs_table", "table stations": "aprs_table",
  "table things": "aprs_table",
};
const OF_SEVERAL = ["merge", "show", "history",
  ...Object.keys(FUNCTIONS).filter(it => it.startsWith("table "))];
const WITH_GAP = [...OF_SEVERAL, "widen"];
const TABLE = "table ";
const PAGE = 65536;
const NAME_ROOM = 16;
const LEAST = 2 ** 22, MOST = 2 ** 33;

class OutOfMemory extends Error {}

/**
 * Browsers count the pages of a 64-bit memory in a BigInt, Node 20 in a number.
 * @param {Memory} memory
 * @param {number} pages
 */
function grow(memory, pages) {
  try {
    memory.grow(BigInt(pages));
  } catch (fault) {
    if (!(fault instanceof TypeError)) throw fault;
    memory.grow(pages);
  }
}

/** Puts things one after the other from the end of the module's own memory on. */
class Layout {
  /** @param {number} start */
  constructor(start) {
    this.end = start;
  }
  /** @param {number} size */
  take(size) {
    const at = this.end;
    this.end = Math.ceil((at + size) / 16) * 16;
    return at;
  }
  /**
   * Makes the memory as large as all that was taken.
   * @param {Memory} memory
   */
  fit(memory) {
    const pages = Math.ceil(this.end / PAGE) - memory.buffer.byteLength / PAGE;
    try {
      if (pages > 0) grow(memory, pages);
    } catch (fault) {
      throw new OutOfMemory("out of memory", { cause: fault });
    }
  }
}

/**
 * The texts that a command gives its function, beside the inputs.
 * @param {string} command
 * @param {Options} options
 */
function wordsOf(command, options) {
  if (command === "convert capture") return Array.isArray(options) ? options : [];
  return command.startsWith(TABLE) ? [command.slice(TABLE.length)] : [];
}

/** @typedef {(input: Uint8Array) => void} LetGo frees an input that was copied into the memory */
/**
 * Puts inputs one after the other into a memory; gives where each stands there.
 * @param {Uint8Array} bytes the memory
 * @param {number} at
 * @param {Uint8Array[]} inputs
 * @param {LetGo} letGo
 */
const putIn = (bytes, at, inputs, letGo) => inputs.map(input => {
  const place = bytes.subarray(at, at += input.length);
  place.set(input);
  letGo(input);
  return place;
});
/**
 * One run with so much room for its output and in its region, both in bytes. Gives null for what
 * was written where that had no room, and the inputs as they stand in its memory.
 * @param {WebAssembly.Module} module
 * @param {string} command
 * @param {Options} options
 * @param {Uint8Array[]} inputs
 * @param {number} outputRoom
 * @param {number} regionRoom
 * @param {LetGo} letGo
 * @returns {Omit<Run, "bytes"> & { bytes: Uint8Array | null, placed: Uint8Array[] }}
 */
function attempt(module, command, options, inputs, outputRoom, regionRoom, letGo = () => {}) {
  const it = /** @type {Exports} */ (/** @type {unknown} */ (
    new WebAssembly.Instance(module).exports)), { memory } = it;
  const layout = new Layout(Number(it.__heap_base.value));
  const words = wordsOf(command, options).map(word => new TextEncoder().encode(word));
  const total = inputs.reduce((sum, input) => sum + input.length, 0);
  const answer = layout.take(40), region = layout.take(16);
  const lengths = layout.take(8 * inputs.length);
  const places = words.map(word => layout.take(word.length)), text = layout.take(total);
  const output = layout.take(outputRoom), name = layout.take(NAME_ROOM);
  const start = layout.take(regionRoom);
  layout.fit(memory);
  const view = new DataView(memory.buffer), bytes = new Uint8Array(memory.buffer);
  const put = (/** @type {number} */ at, /** @type {number} */ value) =>
    view.setBigUint64(at, BigInt(value), true);
  put(region, start);
  put(region + 8, Math.floor(regionRoom / 16));
  words.forEach((word, k) => bytes.set(word, places[k]));
  const placed = putIn(bytes, text, inputs, letGo);
  placed.forEach(({ length }, k) => put(lengths + 8 * k, length));
  const given = [answer, region];
  if (WITH_GAP.includes(command)) given.push(Number(options));
  words.forEach((word, k) => given.push(places[k], word.length));
  given.push(text, total);
  if (OF_SEVERAL.includes(command)) given.push(lengths, inputs.length);
  it[FUNCTIONS[command]](...[...given, output, outputRoom, name, NAME_ROOM].map(BigInt));
  const [status, input, line, written, named] =
    [0, 8, 16, 24, 32].map(field => Number(view.getBigUint64(answer + field, true)));
  return {
    status, input, line, written, placed,
    fault: String.fromCharCode(...bytes.subarray(name, name + named)),
    bytes: written <= outputRoom ? bytes.slice(output, output + written) : null,
  };
}

/**
 * A run with so much room, or where there is no memory for it, with half as large a region, and so
 * on, down to what was too little before.
 * @param {Parameters<typeof attempt>} of
 * @param {number} tooLittle
 */
function tried([module, command, options, inputs, outputRoom, room, letGo], tooLittle) {
  for (let regionRoom = room; ; regionRoom = 16 * Math.ceil(regionRoom / 32)) {
    try {
      return { regionRoom,
        ...attempt(module, command, options, inputs, outputRoom, regionRoom, letGo) };
    } catch (fault) {
      if (!(fault instanceof OutOfMemory) || regionRoom / 2 <= tooLittle) throw fault;
    }
  }
}
/**
 * A run of a command over inputs, again with more room where there was too little, up to a region
 * of `MOST` bytes. Inputs that aren't needed any more may be let go of as soon as they are copied.
 * @param {WebAssembly.Module} module
 * @param {string} command
 * @param {Options} options
 * @param {Uint8Array[]} inputs
 * @param {LetGo} [letGo]
 * @returns {Run}
 */
function run(module, command, options, inputs, letGo) {
  const total = inputs.reduce((sum, input) => sum + input.length, 0);
  let outputRoom = 2 * total + PAGE, room = 16 * Math.ceil(total / 2) + LEAST, tooLittle = LEAST;
  for (;;) {
    const { placed, bytes, regionRoom, ...got } =
      tried([module, command, options, inputs, outputRoom, room, letGo], tooLittle);
    room = regionRoom;
    if ((got.status === 3 || got.status === 4) && 2 * room <= MOST) {
      tooLittle = room;
      room *= 2;
    } else if (!bytes) outputRoom = got.written;
    else return { ...got, bytes };
    // they may be gone where they were, and a memory can't be let go of
    [inputs, letGo] = [placed, undefined];
  }
}

export { FUNCTIONS, OutOfMemory, attempt, run };
