// Says what the page makes of tables: node page_says.mjs PAGE < CASES > SAID. A case has the texts
// of the tables rows and messages, and of a roster.
import { readFileSync } from "node:fs";
import { pathToFileURL } from "node:url";

const page = name => import(pathToFileURL(`${process.argv[2]}/${name}.js`).href);
const { pairsOf } = await page("net/clock-offsets");
const { SAVES } = await page("formats/exports");
const { allOf, netOf } = await page("net/net");
const { messagesOf } = await page("net/message-table");
const { tableOf } = await page("net/table-lines");
const { columnsOf } = await page("net/table-reader");
const { repeatsIn } = await page("net/repeats");
const { expectedOf, Names, readRoster } = await page("net/roster");
const { Rows } = await page("net/rows");

function ended(steps) {
  for (;;) {
    const { done, value } = steps.next();
    if (done) return value;
  }
}
function saidOf({ rows, messages, roster }) {
  const table = tableOf(rows), read = new Rows(ended(columnsOf(table)));
  const all = ended(allOf(read, ended(messagesOf(tableOf(messages))), 30));
  const net = ended(netOf(all, -Infinity)), said = {};
  const { list, faults } = readRoster(roster);
  const saved = (name, names) =>
    [...SAVES[name][2](net, { title: "net", rows: table }, { lines: [], names })].join("");
  for (const name of Object.keys(SAVES)) said[name] = saved(name, new Names([]));
  said.expected = expectedOf(list, net.things).map(it => [it.call, it.name, it.group, it.bib,
    it.heardAt === -Infinity ? "never" : new Date(Math.round(it.heardAt * 1000)).toISOString()]);
  said.faults = faults.map(it => it.line);
  said.repeats = ended(repeatsIn(table));
  said.named = saved("messages (CSV)", new Names(list));
  const count = n => read.heard.filter(it => it === n).length;
  const heard = read.lists.map((names, n) => ({ names, heard: count(n) }));
  said.clocks = ended(pairsOf(read, -Infinity, heard));
  return said;
}
process.stdout.write(JSON.stringify(JSON.parse(readFileSync(0, "utf8")).map(saidOf)));
