// @ts-check
// The programs as a command of Node: it does what `aprsbook`, `aprsbook-history` and
// `aprsbook-table` do, over files and standard input. What one can type is of
// completions/programs.txt, and the texts of help are those of the programs: build/command.py puts
// both and the module in.

import fs from "node:fs";
import { parseArgs } from "node:util";
import v8 from "node:v8";
import { GREATEST_GAP } from "./util/limits.js";
import { OutOfMemory, run } from "./worker/wasm-host.js";

/**
 * A row of what one can type: its words, its options, those that have to be given, whether SECONDS
 * comes first, whether it takes many inputs.
 * @typedef {{ words: string[], options: string[], required: string[], seconds: boolean,
 *   many: boolean }} Row
 */
/** @typedef {{ short: string, long: string }} Help */
/**
 * What the command has with it: rows by programs, texts of help by words, the version, the module.
 * @typedef {{ rows: Record<string, Row[]>, helps: Record<string, Help>, version: string,
 *   module: string }} Parts
 */
/** @typedef {{ run: string, options: number | string[], paths: string[] }} Job */

const STATUS = { input: 1, words: 2, output: 3, memory: 4 };
/** An input has at most so many bytes; of a larger one, one more says so. */
const MOST = 2 ** 30;
const GAP = 30;

/** What ends a run early: a text for standard output or error, and a status. */
class End extends Error {
  /** @param {string} text @param {number} status */
  constructor(text, status) {
    super(text);
    this.status = status;
  }
}
const wrong = (/** @type {string} */ text) => new End(`error: ${text}\n`, STATUS.words);

// ---- what is asked for

/**
 * The options and the other words of a command, each judged in its turn: what is wrong comes before
 * help that is asked for behind it.
 * @param {string[]} words
 * @param {string[]} names of its options
 * @param {Help} help
 * @param {string} version what `--version` says, where it is asked for here
 * @param {(words: string[]) => void} judge the words so far that are no options
 */
function parsed(words, names, help, version, judge = () => {}) {
  const options = Object.fromEntries(names.map(name => [name, { type: "string" }]));
  const { tokens } = parseArgs({ args: words, strict: false, tokens: true,
    options: /** @type {any} */ ({ ...options, help: { type: "boolean", short: "h" },
      version: { type: "boolean", short: "V" } }) });
  /** @type {Record<string, string>} */
  const values = {};
  const others = [];
  for (const it of /** @type {any[]} */ (tokens)) {
    if (it.kind === "positional") {
      others.push(it.value);
      judge(others);
    }
    if (it.kind !== "option") continue;
    const { name, rawName, value, inlineValue } = it;
    if (name === "help" && value === undefined)
      throw new End(rawName === "-h" ? help.short : help.long, 0);
    if (name === "version" && value === undefined && version) throw new End(version, 0);
    if (!names.includes(name) || rawName !== `--${name}`)
      throw wrong(`unexpected argument '${rawName}' found`);
    if (value === undefined || !inlineValue && /^-./.test(value))
      throw wrong(`a value is required for '${rawName}' but none was supplied`);
    if (Object.hasOwn(values, name))
      throw wrong(`the argument '${rawName}' cannot be used multiple times`);
    values[name] = value;
    if (name === "gap") secondsIn(value);
  }
  return { values, others };
}
/** @param {string} text */
function secondsIn(text) {
  if (!/^\+?[0-9]+$/.test(text) || !(Number(text) >= 1 && Number(text) <= GREATEST_GAP))
    throw wrong(`invalid value '${text}': it is no number of seconds, 1 to ${GREATEST_GAP}`);
  return Number(text);
}
/**
 * The row of a program that these words ask for, the longest one.
 * @param {Row[]} rows
 * @param {string[]} words
 */
function rowFor(rows, words) {
  const fits = rows.filter(it => it.words.every((word, n) => word === words[n]));
  const row = fits.sort((a, b) => b.words.length - a.words.length)[0];
  if (!row) throw wrong(words.length > 1 ? `invalid value '${words[1]}'` : "FORM is missing");
  return row;
}
/**
 * What a program is asked for by its words.
 * @param {string} program
 * @param {string[]} words
 * @param {Parts} parts
 * @returns {Job}
 */
export function jobOf(program, words, { rows: all, helps, version }) {
  const rows = all[program], of = `${program} ${version}\n`;
  if (program !== "aprsbook") return readJob(program, rows, [], words, helps[program], of);
  const [name, ...rest] = words;
  if (name === undefined || name === "--" && !rest.length)
    return { run: "convert text", options: [], paths: [] };
  if (name === "help") return helpOn(rest, helps);
  if (name.startsWith("-")) parsed([name], [], helps[program], of);
  const own = rows.filter(it => it.words[0] === name);
  if (!own.length) throw wrong(`unrecognized subcommand '${name}'`);
  return readJob(program, own, [name], rest, helps[`${program} ${name}`], "");
}
/**
 * @param {string[]} words
 * @param {Record<string, Help>} helps
 * @returns {never}
 */
function helpOn(words, helps) {
  const help = helps[["aprsbook", ...words].join(" ")];
  if (!help) throw wrong(`unrecognized subcommand '${words[0]}'`);
  throw new End(help.long, 0);
}
/**
 * @param {string} program
 * @param {Row[]} rows those that may be asked for
 * @param {string[]} before the words of the command
 * @param {string[]} words
 * @param {Help} help
 * @param {string} version
 * @returns {Job}
 */
function readJob(program, rows, before, words, help, version) {
  const names = [...new Set(rows.flatMap(it => it.options))], [{ seconds, many }] = rows;
  const rowOf = (/** @type {string[]} */ others) => rowFor(rows, [...before, ...others]);
  /** How many words aren't inputs. */
  const taken = (/** @type {Row} */ row) => row.words.length - before.length + (seconds ? 1 : 0);
  const { values, others } = parsed(words, names, help, version, others => {
    if (seconds) secondsIn(others[0]);
    if (!many && others.length > taken(rowOf(others)) + 1)
      throw wrong(`unexpected argument '${others[others.length - 1]}' found`);
  });
  const row = rowOf(others), left = others.slice(taken(row));
  if (seconds && !others.length) throw wrong("SECONDS is missing");
  const gap = seconds ? secondsIn(others[0]) : values.gap ? secondsIn(values.gap) : GAP;
  const isBad = row.required.some(it => values[it] === undefined) ||
    Object.keys(values).some(it => !row.options.includes(it));
  if (isBad) throw new End("aprsbook: bad capture options\n", STATUS.words);
  return { run: runOf(program, row), paths: left,
    options: row.required.length ? row.required.map(it => values[it]) : gap };
}
/**
 * The run of the module for a row.
 * @param {string} program
 * @param {Row} row
 */
function runOf(program, { words }) {
  if (program === "aprsbook-history") return "history";
  return program === "aprsbook-table" ? `table ${words[0] || "rows"}` : words.join(" ");
}

// ---- inputs and outputs

/**
 * The bytes of an open file, and whether all of them could be read.
 * @param {number} file
 */
function bytesOf(file) {
  const pieces = [];
  let left = MOST + 1, isWhole = true;
  while (left > 0) {
    const piece = Buffer.allocUnsafe(Math.min(left, 2 ** 22));
    let n = 0;
    try {
      n = fs.readSync(file, piece, 0, piece.length, null);
    } catch (fault) {
      if (/** @type {any} */ (fault).code === "EAGAIN") {
        Atomics.wait(new Int32Array(new SharedArrayBuffer(4)), 0, 0, 10);
        continue;
      }
      // so a pipe ends on Windows
      isWhole = /** @type {any} */ (fault).code === "EOF";
    }
    if (!n) break;
    pieces.push(piece.subarray(0, n));
    left -= n;
  }
  return { bytes: new Uint8Array(Buffer.concat(pieces)), isWhole };
}
/** The place of an input that has no path. */
const STANDARD_INPUT = "standard input";
/**
 * Which regular file is open here, by its device and its number there; nothing where it is none, or
 * where the system doesn't tell.
 * @param {number} file
 */
function regularFileOf(file) {
  try {
    const told = fs.fstatSync(file, { bigint: true });
    return told.isFile() ? `${told.dev} ${told.ino}` : "";
  } catch {
    return "";
  }
}
/**
 * Opens all inputs before any is read, or takes standard input where no path is given. None of them
 * may be a regular file that the output goes to: what is written would be read again.
 * @param {string[]} paths
 * @param {(words: string) => Error} refusal
 * @param {number} output
 * @returns {number[]}
 */
export function inputsOf(paths, refusal, output = 1) {
  const taken = regularFileOf(output);
  const unlessOutput = (/** @type {number} */ file, /** @type {string} */ place) => {
    if (taken && regularFileOf(file) === taken) throw refusal(`${place}: input is output`);
    return file;
  };
  const opened = (/** @type {string} */ path) => {
    try {
      return fs.openSync(path, "r");
    } catch {
      throw refusal(`${path}: cannot open`);
    }
  };
  if (!paths.length) return [unlessOutput(0, STANDARD_INPUT)];
  return paths.map(path => unlessOutput(opened(path), path));
}
/**
 * Of several inputs, the paths of empty files that have the name of a book: these are taken for
 * empty logs.
 * @param {string[]} paths @param {number[]} files open at these paths
 */
export const emptyBooks = (paths, files) => paths.length < 2 ? [] : paths.filter((path, n) => {
  const told = path.endsWith(".book") && fs.fstatSync(files[n]);
  return told && told.isFile() && told.size === 0;
});
/**
 * Writes all bytes; says whether the output took them.
 * @param {number} file
 * @param {Uint8Array} bytes
 */
function write(file, bytes) {
  for (let at = 0; at < bytes.length;) {
    try {
      at += fs.writeSync(file, bytes, at, Math.min(bytes.length - at, 2 ** 20));
    } catch (fault) {
      if (/** @type {any} */ (fault).code !== "EAGAIN") return false;
      Atomics.wait(new Int32Array(new SharedArrayBuffer(4)), 0, 0, 10);
    }
  }
  return true;
}

// ---- a run

/**
 * The module, in a Node that has its 64-bit memory by itself or by a flag.
 * @param {string} text in base64
 */
function moduleOf(text) {
  const bytes = Buffer.from(text, "base64");
  try {
    return new WebAssembly.Module(bytes);
  } catch {
    v8.setFlagsFromString("--experimental-wasm-memory64");
    return new WebAssembly.Module(bytes);
  }
}
/**
 * What a run over inputs comes to, where some may not be whole.
 * @param {WebAssembly.Module} module
 * @param {Job} job
 * @param {{ bytes: Uint8Array, isWhole: boolean }[]} inputs
 */
function gotOf(module, job, inputs) {
  const broken = inputs.findIndex(it => !it.isWhole);
  if (broken < 0) return run(module, job.run, job.options, inputs.map(it => it.bytes));
  // up to what could be read of it all is as ever
  const { bytes } = inputs[broken], end = bytes.lastIndexOf(10) + 1;
  const got = run(module, job.run, job.options,
    [...inputs.slice(0, broken).map(it => it.bytes), bytes.subarray(0, end)]);
  const line = job.run === "convert capture" ? 0
    : bytes.reduce((sum, it) => sum + (it === 10 ? 1 : 0), 1);
  if (got.status && got.input < broken) return got;
  const written = /^(check|convert)/.test(job.run) && got.bytes || new Uint8Array();
  // a check doesn't end with its sum then
  const rest = job.run === "check" ? written.lastIndexOf(10, written.length - 2) + 1
    : written.length;
  return { ...got, status: 1, input: broken, line, fault: "Read",
    bytes: written.subarray(0, rest) };
}
/**
 * Does what is asked for; gives the exit status.
 * @param {string} program
 * @param {string[]} words
 * @param {Parts} parts
 */
function work(program, words, parts) {
  const say = (/** @type {string} */ text) => void write(2, Buffer.from(`${program}: ${text}\n`));
  if (words.some(it => it.includes("\ufffd")))
    throw new End("error: invalid UTF-8 was detected in one or more arguments\n", STATUS.words);
  const job = jobOf(program, words, parts);
  const files = inputsOf(job.paths, it => new End(`${program}: ${it}\n`, STATUS.input));
  for (const path of emptyBooks(job.paths, files)) say(`${path}: is empty`);
  const got = gotOf(moduleOf(parts.module), job, files.map(bytesOf));
  if (got.status === STATUS.words) {
    say("bad capture options");
    return STATUS.words;
  }
  const isTaken = write(1, got.bytes || new Uint8Array());
  if (got.status === STATUS.input) {
    const line = /^[A-Z]/.test(got.fault) ? `line ${got.line}: ` : "";
    say(`${job.paths[got.input] ?? STANDARD_INPUT}: ${line}${got.fault}`);
  } else if (got.status) say("out of memory");
  else if (!isTaken) say("cannot write");
  return got.status ? got.status : isTaken ? 0 : STATUS.output;
}
/**
 * The command: its first word may name another program than `aprsbook`.
 * @param {Parts} parts
 */
export function command(parts) {
  const given = process.argv.slice(2), isNamed = Object.hasOwn(parts.rows, given[0] ?? "");
  const program = isNamed ? given[0] : "aprsbook", words = isNamed ? given.slice(1) : given;
  try {
    process.exitCode = work(program, words, parts);
  } catch (fault) {
    if (fault instanceof End) {
      const isTaken = write(fault.status ? 2 : 1, Buffer.from(fault.message));
      if (!fault.status && !isTaken) write(2, Buffer.from(`${program}: cannot write\n`));
      process.exitCode = fault.status || (isTaken ? 0 : STATUS.output);
    } else if (fault instanceof OutOfMemory || fault instanceof RangeError) {
      write(2, Buffer.from(`${program}: out of memory\n`));
      process.exitCode = STATUS.memory;
    } else throw fault;
  }
}
