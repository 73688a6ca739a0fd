// @ts-check
// The roster: who is expected, by call, with a name, a group and a number. What tool and page read
// is the same.

import { firstOf, printable, said } from "../util/text.js";

/** @typedef {{ call: string, name: string, group: string, bib: string }} Expected */
/** @typedef {{ line: number, why: string }} Fault */
/** @typedef {{ list: Expected[], faults: Fault[] }} Roster */

/** A call, perhaps with an SSID, or with `-*` for each of its SSIDs and none. */
const CALL = /^[A-Z0-9]{1,6}(?:-(?:[0-9]|1[0-5]|\*))?$/;
/**
 * What a column of a roster may be headed, in lower case.
 * @type {Record<keyof Expected, string[]>}
 */
const HEADS = { call: ["call", "callsign", "station"], name: ["name", "tactical", "who"],
  group: ["group", "team", "class"], bib: ["bib", "number", "no"] };
/** @type {(keyof Expected)[]} */
const COLUMNS = ["call", "name", "group", "bib"];

/**
 * The fields of a line that this sign parts, some in quotes.
 * @param {string} line
 * @param {string} sign
 */
function fieldsOf(line, sign) {
  const fields = [];
  for (let at = 0; at <= line.length;) {
    while (line[at] === " ") at++;
    let field = "";
    if (line[at] === '"') {
      for (at++; at < line.length; at++) {
        if (line[at] !== '"') field += line[at];
        else if (line[at + 1] === '"') field += line[at++];
        else break;
      }
      at++;
    }
    const end = line.indexOf(sign, at), stop = end < 0 ? line.length : end;
    fields.push((field + line.slice(at, stop)).trim());
    at = stop + 1;
  }
  return fields;
}
/**
 * The sign after the first word of a line, or before it, where its first field is empty.
 * @param {string} line
 */
function signOf(line) {
  const [, after, before] =
    /^\s*(?:"[^"]*"|[^\s",;]+)[ ]*([,;\t])|^[ ]*([,;])/.exec(line) || [];
  return after || before || "";
}
/**
 * A line in fields: by a sign, or else the first word and the rest.
 * @param {string} line
 * @param {string} sign
 */
function splitLine(line, sign) {
  if (sign) return fieldsOf(line, sign);
  const [, call, name] = /^\s*"?([^\s"]+)"?\s*(.*)$/.exec(line) || [];
  return name ? [call, fieldsOf(name, "\0")[0]] : [call || ""];
}
/**
 * How the cells in quotes of a line end: as a spreadsheet writes them ("whole"), with something
 * behind them ("loose"), or not at all ("open").
 * @param {string} line
 * @param {string} sign
 */
function quotesOf(line, sign) {
  const [, , name] = /^\s*"?([^\s"]+)"?\s*(.*)$/.exec(line) || [];
  const text = sign ? line : name || "";
  let result = "whole";
  for (let at = 0;;) {
    while (text[at] === " ") at++;
    if (text[at] === '"') {
      const [quoted] = /^"(?:[^"]|"")*"/.exec(text.slice(at)) || [];
      if (!quoted) return "open";
      at += quoted.length;
      let rest = at;
      while (text[rest] === " ") rest++;
      if (rest < text.length && text[rest] !== (sign || "\0")) result = "loose";
    }
    at = text.indexOf(sign || "\0", at) + 1;
    if (!at) return result;
  }
}
/** The lines at most that a cell in quotes goes over. */
const CELL = 20;
/**
 * The lines from one on that are a row: those of a cell in quotes within which a line breaks.
 * @param {string[]} lines
 * @param {number} at
 * @param {(line: string) => string} signOfRow
 */
function rowAt(lines, at, signOfRow) {
  const isOpen = quotesOf(lines[at], signOfRow(lines[at])) === "open";
  for (let end = at + 2; isOpen && end <= Math.min(lines.length, at + CELL); end++) {
    const row = lines.slice(at, end).join(" ");
    if (quotesOf(row, signOfRow(row)) === "whole") return { row, end };
  }
  return { row: lines[at], end: at + 1 };
}
/**
 * The places of the columns, where a line is a head. What stands beside a call alone is a name.
 * @param {string[]} fields
 */
function headOf(fields) {
  const names = fields.map(it => it.toLowerCase());
  if (!names.some(it => HEADS.call.includes(it))) return null;
  const isKnown = COLUMNS.some(column => HEADS[column].includes(names[1]));
  if (names.length === 2 && HEADS.call.includes(names[0]) && !isKnown) return [0, 1, 2, 3];
  return COLUMNS.map(column => names.findIndex(it => HEADS[column].includes(it)));
}
/**
 * Reads a roster: lines of call, name, group and number.
 * @param {string} text @returns {Roster}
 */
export function readRoster(text) {
  /** @type {Expected[]} */
  const list = [];
  /** @type {Fault[]} */
  const faults = [], calls = new Set();
  let places = [0, 1, 2, 3], own = "", isFirst = true;
  const lines = text.replace(/^\ufeff/, "").split(/\r\n|\n|\r/);
  const signIn = (/** @type {string} */ line) => own && line.includes(own) ? own : signOf(line);
  for (let n = 0, next = 0; n < lines.length; n = next) {
    next = n + 1;
    const [, separator] = /^sep=([,;\t])\s*$/i.exec(lines[n]) || [];
    own = separator || own;
    if (separator || /^[\s,;"]*$/.test(lines[n]) || lines[n].trim().startsWith("#")) continue;
    const { row, end } = rowAt(lines, n, signIn), sign = signIn(row), fields = splitLine(row, sign);
    next = end;
    const head = isFirst ? headOf(fields) : null;
    isFirst = false;
    if (head) {
      places = head;
      // a first column that isn't the call may be empty, or have blanks
      own = head[0] > 0 ? sign : own;
      continue;
    }
    const [call, name, group, bib] = places.map(at => fields[at] ?? "");
    const upper = call.toUpperCase().replace(/-0$/, "");
    const fault = (/** @type {string} */ why) => faults.push({ line: n + 1, why });
    if (sign && quotesOf(row, sign) === "open") fault("a quote stands open");
    else if (!CALL.test(upper)) fault(`${call || "nothing"} is no call`);
    else if (calls.has(upper)) fault(`${upper} stands there twice`);
    else {
      calls.add(upper);
      list.push({ call: upper, name, group, bib });
    }
  }
  return { list, faults };
}
/**
 * The first faults of a roster, in words; a list that is none has one in each line.
 * @param {Fault[]} faults
 */
export const faultWords = faults =>
  firstOf(faults.map(it => `line ${it.line}: ${printable(it.why)}`));
/**
 * Several rosters as one; of a call that stands in several, the first line counts.
 * @param {Roster[]} all
 */
export function joined(all) {
  const calls = new Set();
  return all.flatMap(it => it.list).filter(({ call }) => {
    const isNew = !calls.has(call);
    calls.add(call);
    return isNew;
  });
}
/**
 * The text of a roster, which is read as this one.
 * @param {Expected[]} list
 */
export function rosterText(list) {
  const field = (/** @type {string} */ text) =>
    /[",;\t]|^\s|\s$/.test(text) ? `"${text.replaceAll('"', '""')}"` : text;
  return ["call,name,group,number", ...list.map(it => COLUMNS.map(name => field(it[name])).join())]
    .map(line => line + "\n").join("");
}
const baseOf = (/** @type {string} */ call) => call.replace(/-\d+$/, "");

/** Whom one knows: names by call. */
export class Names {
  /**
   * @param {Expected[]} list
   * @param {Map<string, string>} before the call that each had before that it has now
   */
  constructor(list, before = new Map()) {
    this.by = new Map(list.map(it => [it.call, it]));
    this.before = before;
  }
  /**
   * The line of a station: its own, that of each of its SSIDs, or that of the call it had before.
   * @param {string} call
   * @returns {Expected | undefined}
   */
  of(call) {
    const before = this.before.get(call) || "";
    return this.by.get(call) || this.by.get(`${baseOf(call)}-*`) || this.by.get(before) ||
      this.by.get(`${baseOf(before)}-*`);
  }
  /**
   * The name of a station alone, empty where there is none.
   * @param {string} call
   */
  nameOf(call) {
    return this.of(call)?.name ?? "";
  }
  /** Whether somebody has a name. */
  get hasNames() {
    return [...this.by.values()].some(it => it.name);
  }
  /**
   * A call as it is shown, with the name of whom it is: `Leader (Q1RUN-7)`.
   * @param {string} call
   */
  shown(call) {
    const name = this.of(call)?.name, own = said(call);
    return name ? `${printable(name)} (${own})` : own;
  }
}
/**
 * When each expected station was last heard, and its key; of any SSID, that of the one heard last.
 * What goes on under another call is heard under that too.
 * @param {Expected[]} list
 * @param {{ key: string, name: string, kind: string, heardAt: number }[]} things
 * @param {Map<string, string>} before the call that each had before
 */
export function expectedOf(list, things, before = new Map()) {
  const none = { heardAt: -Infinity, key: "" }, latest = new Map();
  for (const it of things) {
    if (it.kind !== "station") continue;
    for (const name of [it.name, before.get(it.name)])
      for (const call of name ? [name, `${baseOf(name)}-*`] : [])
        if (it.heardAt > (latest.get(call) || none).heardAt) latest.set(call, it);
  }
  return list.map(it => {
    const { heardAt, key } = latest.get(it.call) || none;
    return { ...it, heardAt, key };
  });
}
