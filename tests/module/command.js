// Runs the command for Node and the programs, over damaged texts by files and by standard input,
// with right words and wrong ones, and compares bytes, statuses and complaints. Of wrong words that
// the programs don't name as their own, the status is compared.
// usage: node tests/module/command.js COMMAND.mjs COUNT SEED FILE..    the programs are in the PATH
import { spawnSync } from "node:child_process";
import fs from "node:fs";
import os from "node:os";
import path from "node:path";
import { changedBy, picksBy } from "./changed.js";

const [command, count, seed, ...files] = process.argv.slice(2);
const { random, pick } = picksBy(Number(seed)), changed = changedBy({ random, pick });
const texts = files.map(it => new Uint8Array(fs.readFileSync(it)));
const book = spawnSync("aprsbook", ["merge", ...files], { maxBuffer: 1 << 30 }).stdout;
const kiss = spawnSync("aprsbook", ["convert", "kiss", files[0]], { maxBuffer: 1 << 30 }).stdout;
texts.push(book, kiss);
let faults = 0;
const statuses = {};

const CAPTURE = ["convert", "capture", "--receiver", "RX1", "--moment", "2024-05-01T12:00:00Z"];
const SINGLE = [["check"], ["convert", "text"], ["convert", "kind"], ["convert", "kiss"],
  ["convert", "log"], CAPTURE, ["widen", "60"], ["widen", "3600"]];
const MANY = [["aprsbook", "merge"], ["aprsbook", "show"], ["aprsbook-history"], ["aprsbook-table"],
  ...["rows", "messages", "stations", "things"].map(it => ["aprsbook-table", it])];
const GAPS = [[], [], ["--gap", "30"], ["--gap=60"], ["--gap", "1"], ["--gap", "3600"]];
const HELPS = [["-h"], ["--help"], ["-V"], ["--version"], ["help"], ["help", "merge"],
  ["check", "--help"], ["merge", "-h"], ["convert", "--help"], ["widen", "--help"],
  ["show", "--help"], ["help", "convert"]];
// words that may stand anywhere, most of them wrongly
const ANY = ["--gap", "--gap=", "0", "60", "3601", "x", "--other", "-x", "-h", "--help", "--", "-",
  "rows", "text", "capture", "--receiver", "RX1", "R.1", "--moment", "2024-05-01T12:00:00Z",
  "check",
  "merge", "input-0", "nowhere", "", "+5", "007", "--version", "-V", "-hV", "--gap=30", "help"];

/** Words at random: mostly right ones, and then some that are put in, left out or doubled. */
function wordsOf(names) {
  const isMany = random(2), words = isMany ? [...pick(MANY)] : ["aprsbook", ...pick(SINGLE)];
  if (!random(12)) return ["aprsbook", ...pick(HELPS)];
  if (isMany) words.push(...pick(GAPS));
  for (let n = isMany ? random(4) : random(2); n > 0; n--) words.push(pick(names));
  if (!random(12)) words.push("nowhere");
  for (let n = random(3) ? 0 : 1 + random(2); n > 0; n--) {
    const at = 1 + random(words.length);
    words.splice(at, random(2), ...random(3) ? [pick(ANY)] : []);
  }
  return words;
}
function compare(words, input) {
  const of = { input, maxBuffer: 1 << 30 }, [program, ...rest] = words;
  const wanted = spawnSync(program, rest, of);
  const got = spawnSync(process.execPath, [command, ...program === "aprsbook" ? rest : words], of);
  const isOwn = wanted.status === 2 && wanted.stderr.toString().startsWith("error: ");
  const said = it => isOwn ? it.stderr.toString().slice(0, 7) : it.stderr.toString();
  statuses[wanted.status] = (statuses[wanted.status] || 0) + 1;
  if (got.status === wanted.status && got.stdout.equals(wanted.stdout) &&
    said(got) === said(wanted)) return;
  if (++faults < 20)
    console.error("tests/module/command.js:", JSON.stringify(words), "ends with", got.status, "and not",
      wanted.status, got.stdout.length, "bytes and not", wanted.stdout.length,
      JSON.stringify(got.stderr.toString().slice(0, 300)), "and not",
      JSON.stringify(wanted.stderr.toString().slice(0, 300)));
}

/** The same where the output goes to a file with this text, which is compared too. */
function compareInto(words, text, input) {
  const [wanted, got] = [words, [process.execPath, command, ...words]].map(([program, ...rest]) => {
    fs.writeFileSync("io.log", text);
    const output = fs.openSync("io.log", "a"), given = fs.openSync(input, "r");
    const done = spawnSync(program, rest, { stdio: [given, output, "pipe"] });
    [output, given].forEach(it => fs.closeSync(it));
    return [done.status, done.stderr.toString(), fs.readFileSync("io.log", "latin1")];
  });
  if (got.join("\n") === wanted.join("\n")) return;
  faults++;
  console.error("tests/module/command.js:", JSON.stringify(words), "into a file: it ends so:",
    got.slice(0, 2), "and not so:", wanted.slice(0, 2));
}

for (const words of HELPS) compare(["aprsbook", ...words], "");
for (const program of ["aprsbook-history", "aprsbook-table"])
  for (const word of ["-h", "--help", "-V", "--version"]) compare([program, word], "");
compare(["aprsbook", "check", path.resolve(".")], "");
compare(["aprsbook", "merge", files[0], path.resolve(".")], "");
compare(["aprsbook"], texts[0]);
// a file that is both input and output, and empty files with the name of a book
const log = Buffer.from(texts[0]).toString("latin1");
fs.symlinkSync("io.log", "soft.log");
fs.writeFileSync("gone.book", "");
for (const name of ["io.log", "./io.log", "soft.log", "nowhere", "gone.book", files[0]])
  for (const words of [["check"], ["convert", "log"], ["merge", files[0]], ["widen", "60"]])
    compareInto(["aprsbook", ...words, name], log, os.devNull);
for (const words of [["aprsbook", "check"], ["aprsbook", "merge"], ["aprsbook-history"],
  ["aprsbook-table", "stations"]])
  for (const input of ["io.log", "soft.log", files[0]]) compareInto(words, log, input);
for (const names of [["gone.book"], ["gone.book", files[0]], ["gone.book", "gone.book", "nowhere"]])
  for (const words of [["aprsbook", "merge"], ["aprsbook", "show"], ["aprsbook-table"]])
    compare([...words, ...names], "");
const names = ["input-0", "input-1", "input-2"];
for (let k = 0; k < Number(count); k++) {
  for (const name of names) fs.writeFileSync(name, random(3) ? changed(pick(texts)) : pick(texts));
  compare(wordsOf(names), random(2) ? changed(pick(texts)) : pick(texts));
}
console.log(`the command for Node does what the programs do in ${count} runs at random: `
  + Object.entries(statuses).map(([status, n]) => `${n} ended with ${status}`).join(", "));
process.exitCode = faults ? 1 : 0;
