// Runs the commands by the module and by the program, over the given files, books made of them,
// damaged texts and none, and compares bytes, statuses and what is said of a fault.
// usage: node [--experimental-wasm-memory64] tests/module/module.js MODULE PROGRAM COUNT SEED FILE..
import { spawnSync } from "node:child_process";
import fs from "node:fs";
import path from "node:path";
import { saidIn } from "../../page/src/net/book-slices.js";
import { attempt, FUNCTIONS, run } from "../../page/src/worker/wasm-host.js";
import { columnsOf } from "../../page/src/net/table-reader.js";
import { atOnce } from "../../page/src/util/tasks.js";
import { changedBy, picksBy } from "./changed.js";

const [file, program, count, seed, ...files] = process.argv.slice(2);
const code = new WebAssembly.Module(fs.readFileSync(file));
const COMMANDS = Object.keys(FUNCTIONS);
const TABLES = COMMANDS.filter(it => it.startsWith("table "));
const SEVERAL = ["merge", "show", "history", ...TABLES];
// the history and the tables have programs of their own
const NAME_OF = command => command === "history" ? "aprsbook-history"
  : TABLES.includes(command) ? "aprsbook-table" : "aprsbook";
const CAPTURE = ["RX1", "2024-05-01T12:00:00Z"];
let runs = 0, faults = 0;
const { random, pick } = picksBy(Number(seed)), changed = changedBy({ random, pick });

function fail(...words) {
  if (++faults < 9) console.error("tests/module/module.js:", ...words);
}

// what the program does
function byProgram(command, options, inputs) {
  const names = inputs.map((_, k) => path.join(process.cwd(), `input-${k}`));
  inputs.forEach((it, k) => fs.writeFileSync(names[k], it));
  const own = NAME_OF(command) !== "aprsbook", words = command.split(" ").slice(own ? 1 : 0);
  if (SEVERAL.includes(command)) words.push("--gap", String(options));
  if (command === "widen") words.push(String(options));
  if (command === "convert capture") words.push("--receiver", options[0], "--moment", options[1]);
  const it = spawnSync(own ? NAME_OF(command) : program, [...words, ...names],
    { input: "", maxBuffer: 1 << 30 });
  return { status: it.status, bytes: it.stdout, said: it.stderr.toString(), names };
}

// what the program says of a fault
function saidOf(command, it, names) {
  if (it.status === 0) return "";
  if (it.status !== 1) return null;
  const ofLine = /^[A-Z]/.test(it.fault);
  const place = ofLine ? `line ${it.line}: ` : "";
  return `${NAME_OF(command)}: ${names[it.input]}: ${place}${it.fault}\n`;
}

// the messages of a book are those of its rows that tell of any, which the page reads alone
function compareMessages(book, gap) {
  const table = (name, bytes) => run(code, `table ${name}`, gap, [Uint8Array.from(bytes)]).bytes;
  const said = saidIn(Uint8Array.from(book), atOnce(columnsOf(table("rows", book))).columns);
  if (!said || Buffer.compare(table("messages", book), table("messages", said)) !== 0)
    fail("messages of a book of", book.length, "bytes aren't those of the rows that tell of any");
}

function compare(command, options, inputs) {
  // what is let go of isn't read again, also where a run wants more room
  const wanted = byProgram(command, options, inputs), letGo = it => it.fill(0);
  const got = run(code, command, options, inputs.map(it => Uint8Array.from(it)), letGo);
  const said = wanted.status === 2 ? null : wanted.said;
  runs++;
  if (wanted.status !== got.status || Buffer.compare(wanted.bytes, Buffer.from(got.bytes)) !== 0
      || said !== saidOf(command, got, wanted.names))
    fail(command, options, inputs.map(it => it.length), "status", got.status, "and not",
      wanted.status, got.bytes.length, "bytes and not", wanted.bytes.length, said, got.fault);
  if (command === "merge" && wanted.status === 0) compareMessages(wanted.bytes, options);
  return wanted;
}

const optionsOf = (command, gap) => command === "convert capture" ? CAPTURE : gap;

function tryFiles(texts) {
  for (const gap of [30, 1, 3600, 0, 3601]) {
    for (const command of COMMANDS) {
      if (SEVERAL.includes(command)) {
        compare(command, gap, texts);
        // the program reads standard input, which is empty here, where there is no file
        compare(command, gap, []);
      }
      for (const it of texts) compare(command, optionsOf(command, gap), [it]);
    }
  }
  const book = new Uint8Array(byProgram("merge", 30, texts.slice(0, 2)).bytes);
  for (const command of COMMANDS) compare(command, optionsOf(command, 30), [book]);
  for (const gap of [30, 60]) compare("merge", gap, [book, ...texts]);
  for (const gap of [5, 60]) compare("widen", gap, [book]);
  // a capture becomes more than the room that a run begins with
  const kiss = byProgram("convert kiss", 30, [texts[0]]).bytes;
  compare("convert capture", CAPTURE, [Buffer.concat(Array(400).fill(kiss))]);
  for (const options of [["", CAPTURE[1]], ["RX 1", CAPTURE[1]], ["RX1", "today"]])
    compare("convert capture", options, [texts[0]]);
}

function tryDamaged(logs) {
  const texts = [...logs];
  for (const gap of [30, 60]) texts.push(byProgram("merge", gap, logs).bytes);
  texts.push(byProgram("convert kiss", 30, [logs[0]]).bytes);
  const statuses = {};
  for (let k = 0; k < Number(count); k++) {
    const command = pick([...COMMANDS, ...SEVERAL]);
    const many = SEVERAL.includes(command) ? 1 + random(4) : 1;
    const inputs = Array.from({ length: many }, () => changed(pick(texts)));
    const gap = pick([30, 30, 60, 1, 3600]);
    const { status } = compare(command, optionsOf(command, gap), inputs);
    statuses[status] = (statuses[status] || 0) + 1;
  }
  return statuses;
}

// ---- too little room: the bytes that are wanted, a first part of them, or none

const ROOM = 1 << 21;

// whether a run in a small region may end so, where it would end as `wanted`
function mayEnd(got, wanted) {
  if (got.status === wanted.status) return got.written === wanted.written;
  return got.status === 3 || (got.status === 4 && got.written === 0);
}

function tryLittleOf(command, inputs) {
  const options = optionsOf(command, 30), wanted = run(code, command, options, inputs);
  for (let size = 32; size < ROOM; size = Math.ceil(size * 1.3)) {
    const got = attempt(code, command, options, inputs, ROOM, size);
    runs++;
    if (!mayEnd(got, wanted)) fail(command, "in", size, "ends with", got.status);
    const part = Buffer.from(wanted.bytes.subarray(0, got.written));
    if (Buffer.compare(part, Buffer.from(got.bytes)) !== 0) fail(command, "in", size, "is other");
  }
  if (wanted.written === 0) return;
  const got = attempt(code, command, options, inputs, wanted.written - 1, 2 * ROOM);
  if (got.bytes !== null || got.written !== wanted.written) fail(command, "writes without room");
}

function tryLittle(texts) {
  for (const command of COMMANDS)
    tryLittleOf(command, SEVERAL.includes(command) ? texts : texts.slice(0, 1));
}

const imports = WebAssembly.Module.imports(code).length;
if (imports !== 0) fail("the module has", imports, "imports");
const texts = files.map(it => new Uint8Array(fs.readFileSync(it)));
tryFiles(texts);
tryLittle(texts);
const statuses = tryDamaged(texts);
console.log(`the module does what the program does in ${runs} runs, ${Number(count)} of them over`
  + ` damaged texts, of which ${statuses[0] || 0} went well`);
process.exitCode = faults ? 1 : 0;
