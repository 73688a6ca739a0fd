// @ts-check
// What a thing measured, as small graphs over time: one for each column of the table, or two that
// belong together, with its scale and its unit. A gap in time isn't joined.

import { unitOf } from "../geo/units.js";
import { isBattery } from "../net/telemetry.js";
import { make, svg } from "../util/dom.js";
import { timeText } from "../util/time.js";

/** @typedef {import("../net/rows.js").Rows} Rows */
/** @typedef {import("../net/telemetry.js").Channel} Channel */
/** @typedef {{ at: number, value: number }} Point a moment in seconds, and what was measured */
/** @typedef {{ title: string, unit: string, lines: Point[][] }} Graph a line for each column */
/** @typedef {{ begin: number, end: number }} Time */

/**
 * What there is a graph of: its columns of the table, and a quantity of units, or its own unit and
 * how their numbers become those of it.
 * @typedef {{ title: string, columns: string[], quantity?: import("../geo/units.js").Quantity,
 *   unit?: string, of?: (n: number) => number }} Kind
 */
/** @type {Kind[]} */
const GRAPHS = [
  { title: "height", quantity: "metres", columns: ["altitude_m"] },
  { title: "speed", quantity: "knots", columns: ["speed_knots"] },
  { title: "temperature", quantity: "fahrenheit", columns: ["temperature_f"] },
  { title: "wind, and gusts", quantity: "mph", columns: ["wind_mph", "gust_mph"] },
  { title: "rain in an hour", quantity: "rain", columns: ["rain_hour"] },
  { title: "humidity", unit: "%", columns: ["humidity"] },
  { title: "pressure", unit: "hPa", columns: ["pressure_tenths"], of: n => n / 10 },
  { title: "luminosity", unit: "W/m\u00b2", columns: ["luminosity"] },
];
/**
 * Those of telemetry, a battery's first.
 * @param {Channel[]} channels
 * @returns {Kind[]}
 */
const telemetryOf = channels => channels
  .map((it, n) => ({ title: it.name, unit: it.unit, of: it.of, columns: [`a${n + 1}`],
    rank: isBattery(it) ? 0 : 1 }))
  .sort((a, b) => a.rank - b.rank);

/**
 * What these rows say in columns, a line for each of these. Of thousands of rows no record is made.
 * @param {Rows} rows
 * @param {number[]} numbers rows by time
 * @param {string[]} columns
 */
function linesOf(rows, numbers, columns) {
  const places = columns.map(it => rows.names.indexOf(it));
  const lines = columns.map(() => /** @type {Point[]} */ ([]));
  for (const k of numbers) {
    const fields = rows.line(k).split("\t");
    places.forEach((at, n) => {
      if (fields[at]) lines[n].push({ at: rows.first[k], value: Number(fields[at]) });
    });
  }
  return new Map(columns.map((name, n) => [name, lines[n]]));
}
/**
 * The graphs of these rows, of what at least two of them say.
 * @param {Rows} rows
 * @param {number[]} numbers rows by time
 * @param {Channel[]} channels of telemetry
 * @param {import("../geo/units.js").Units} units
 * @returns {Graph[]}
 */
export function graphsOf(rows, numbers, channels, units) {
  const kinds = [...GRAPHS, ...telemetryOf(channels)];
  const told = linesOf(rows, numbers, kinds.flatMap(it => it.columns));
  return kinds.map(({ title, columns, quantity, ...own }) => {
    const { unit = "", of = n => n } = quantity ? unitOf(quantity, units) : own;
    const lines = columns.map(name => (told.get(name) || [])
      .map(({ at, value }) => ({ at, value: of(value) })));
    return { title, unit, lines: lines.filter(it => it.length > 1) };
  }).filter(it => it.lines.length);
}
/**
 * The parts of a line, between its gaps: steps of more than three usual ones, and a minute.
 * @param {Point[]} line
 */
export function partsOf(line) {
  const steps = line.slice(1).map((it, n) => it.at - line[n].at).sort((a, b) => a - b);
  const most = Math.max(60, 3 * (steps[steps.length >> 1] || 0));
  /** @type {Point[][]} */
  const parts = [];
  line.forEach((it, n) => {
    if (n && it.at - line[n - 1].at <= most) parts[parts.length - 1].push(it);
    else parts.push([it]);
  });
  return parts;
}
/**
 * Round numbers that a scale shows: the first isn't above, and the last not below what there is.
 * @param {number} least
 * @param {number} most
 */
export function ticksOf(least, most) {
  const wide = most - least || Math.max(1, Math.abs(most) / 10);
  const power = 10 ** Math.floor(Math.log10(wide / 2));
  const step = [1, 2, 5, 10].map(it => it * power).find(it => wide / it <= 3) || 10 * power;
  const first = Math.floor(least / step + 1e-9);
  const last = Math.max(first + 1, Math.ceil(most / step - 1e-9));
  return Array.from({ length: last - first + 1 },
    (_, n) => Number(((first + n) * step).toPrecision(12)));
}
/** Of a graph's picture: its size, and the room beside and below its lines. */
const SIZE = { width: 320, height: 120, left: 46, right: 8, top: 8, bottom: 20 };

/**
 * A graph as a picture, over all of a time.
 * @param {Graph} graph
 * @param {Time} time
 * @param {import("../util/time.js").Clock} clock
 */
export function graphNode({ title, unit, lines }, time, clock) {
  const all = lines.flat().map(it => it.value), last = lines[0][lines[0].length - 1];
  const least = all.reduce((a, b) => Math.min(a, b)), most = all.reduce((a, b) => Math.max(a, b));
  const ticks = ticksOf(least, most), high = ticks[ticks.length - 1] - ticks[0];
  const x = (/** @type {number} */ at) => SIZE.left + (SIZE.width - SIZE.left - SIZE.right) *
    (at - time.begin) / Math.max(1, time.end - time.begin);
  const y = (/** @type {number} */ value) => SIZE.height - SIZE.bottom -
    (SIZE.height - SIZE.top - SIZE.bottom) * (value - ticks[0]) / high;
  const latest = `${number(last.value)} ${isUnit(unit) ? unit : ""}`.trim();
  const words = `${title} (${unit}): ${number(least)} to ${number(most)}, last ${latest} at ` +
    timeText(last.at, clock);
  return make("figure", { className: "graph" },
    make("figcaption", {}, `${title} `, make("small", { textContent: `${unit}, last ${latest}` })),
    svg("svg", { viewBox: `0 0 ${SIZE.width} ${SIZE.height}`, role: "img", "aria-label": words },
      ...ticks.map(value => tick(value, y(value))), ...hours(time, x, clock),
      ...lines.map((line, n) => lineNode(line, n, x, y))));
}
const isUnit = (/** @type {string} */ unit) => unit !== "as sent" && unit !== "no unit said";
const number = (/** @type {number} */ n) =>
  n.toLocaleString("en", { maximumFractionDigits: Math.abs(n) < 100 ? 1 : 0 });
/** @param {number} value @param {number} at */
function tick(value, at) {
  const text = svg("text", { x: SIZE.left - 4, y: at + 3.5, "text-anchor": "end" },
    value.toLocaleString("en", { maximumFractionDigits: 2 }));
  const d = `M${SIZE.left} ${at}H${SIZE.width - SIZE.right}`;
  return svg("g", {}, svg("path", { class: "rule", d }), text);
}
/**
 * When the graph begins, its middle and its end.
 * @param {Time} time
 * @param {(at: number) => number} x
 * @param {import("../util/time.js").Clock} clock
 */
function hours({ begin, end }, x, clock) {
  const anchors = ["start", "middle", "end"];
  return anchors.map((anchor, n) => {
    const at = begin + (end - begin) * n / 2;
    return svg("text", { x: x(at), y: SIZE.height - 5, "text-anchor": anchor },
      timeText(at, clock).replace(/:\d\d$/, ""));
  });
}
/**
 * A line, and a dot for each part of one point.
 * @param {Point[]} line
 * @param {number} n
 * @param {(at: number) => number} x
 * @param {(value: number) => number} y
 */
function lineNode(line, n, x, y) {
  const spot = (/** @type {Point} */ it) => `${x(it.at).toFixed(1)} ${y(it.value).toFixed(1)}`;
  const d = partsOf(line).map(part => part.length > 1 ? `M${part.map(spot).join("L")}`
    : `M${spot(part[0])}h.01`).join("");
  return svg("path", { class: `line l${n}`, d });
}
