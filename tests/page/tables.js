// Tables by hand, for the tests of the page's parts.
import { SAVES } from "../../page/src/formats/exports.js";
import { Names } from "../../page/src/net/roster.js";
import { settingsOf } from "../../page/src/net/settings.js";
import { atOnce } from "../../page/src/util/tasks.js";
import { allOf, netOf } from "../../page/src/net/net.js";
import { columnsOf } from "../../page/src/net/table-reader.js";
import { messagesOf } from "../../page/src/net/message-table.js";
import { tableOf } from "../../page/src/net/table-lines.js";
import { Rows } from "../../page/src/net/rows.js";

export const COLUMNS = ("kind first last receivers receiver source destination via gate name " +
  "state id latitude longitude ambiguity compressed symbol stamp course speed_knots altitude_m " +
  "wind_from wind_mph gust_mph temperature_f rain_hour rain_day rain_midnight humidity " +
  "pressure_tenths luminosity telemetry_sequence a1 a2 a3 a4 a5 bits says text").split(" ");
const MESSAGES = ("source addressee id text state first last answer answer_source reply_ack " +
  "reply_answer gate class number outcome outcome_moment").split(" ");

/** A moment of 21 June 2024, so many seconds after six in the evening. */
export const moment = seconds => new Date(Date.UTC(2024, 5, 21, 18) + 1000 * seconds).toISOString();
const lineOf = (columns, fields) => columns.map(it => fields[it] ?? "").join("\t") + "\n";

/** A row of a table, heard at a second by these. */
export const row = (kind, second, source, { receivers = "RX1", ...fields } = {}) =>
  lineOf(COLUMNS, { kind, first: moment(second), last: moment(second), receivers,
    receiver: receivers.split(",").at(-1), source, destination: "APRS", ...fields });
export const place = (second, source, north, east, fields = {}) => row("position", second, source, {
  latitude: north.toFixed(7), longitude: east.toFixed(7), ambiguity: 0, compressed: "no",
  symbol: "/>", ...fields });
export const message = (source, addressee, text, state, second, fields = {}) => lineOf(MESSAGES,
  { source, addressee, text, state, first: moment(second), last: moment(second),
    class: addressee.startsWith("BLN") ? "bulletin" : "message", number: fields.id, outcome: state,
    outcome_moment: fields.answer, ...fields });

export const table = (lines, columns = COLUMNS) => columns.join("\t") + "\n" + lines.join("");
export const messageTable = lines => table(lines, MESSAGES);
export const rowsOf = (lines, columns) =>
  new Rows(atOnce(columnsOf(tableOf(table(lines, columns)))));
export const readMessages = text => atOnce(messagesOf(tableOf(text)));
/** The net of rows and messages. */
export function netOfLines(lines, messages = [], { since = -Infinity, gap = 30 } = {}) {
  return atOnce(netOf(allOfLines(lines, messages, gap), since));
}
/** What the tables of rows and messages say. */
export const allOfLines = (lines, messages = [], gap = 30) =>
  atOnce(allOf(rowsOf(lines), readMessages(messageTable(messages)), gap));
/** Settings of a page with a roster of these. */
export const settingsFor = (list = [], of = {}) => settingsOf({ names: new Names(list), ...of });
export const SETTINGS = settingsOf();
/** What is saved by a name of the menu, with an operator's lines and a roster. */
export const savedText = (name, net, data = { title: "net" }, { lines = [], list = [] } = {}) =>
  [...SAVES[name][2](net, data, { lines, names: new Names(list) })].join("");
export const thing = (net, name) => net.things.find(it => it.name === name);
