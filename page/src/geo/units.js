// @ts-check
// In which units lengths, speeds, temperatures and rain are written: metric ones, or miles, feet
// and degrees of Fahrenheit.

import { roundUp } from "../util/numbers.js";

/** @typedef {{ miles: boolean }} Units what the reader chose */
const FOOT = 0.3048, MILE = 1609.344;
const same = (/** @type {number} */ n) => n;

/**
 * How a number of the table becomes one of a unit, and how many digits behind the point it has.
 * @typedef {{ unit: string, of: (n: number) => number, digits: (n: number) => number }} Unit
 */
/** @typedef {"metres" | "knots" | "mph" | "fahrenheit" | "rain"} Quantity as the table has it */
const whole = () => 0, one = () => 1;
/** @type {Record<Quantity, Unit>} */
const METRIC = {
  metres: { unit: "m", of: same, digits: whole },
  knots: { unit: "km/h", of: n => n * 1.852, digits: whole },
  mph: { unit: "m/s", of: n => n * 0.44704, digits: n => n < 4.4704 ? 1 : 0 },
  fahrenheit: { unit: "\u00b0C", of: n => (n - 32) / 1.8, digits: whole },
  rain: { unit: "mm", of: n => n * 0.254, digits: one },
};
/** @type {Record<Quantity, Unit>} */
const OF_MILES = {
  metres: { unit: "ft", of: n => n / FOOT, digits: whole },
  knots: { unit: "mph", of: n => n * 1852 / MILE, digits: whole },
  mph: { unit: "mph", of: same, digits: whole },
  fahrenheit: { unit: "\u00b0F", of: same, digits: whole },
  rain: { unit: "in", of: n => n / 100, digits: () => 2 },
};
/**
 * The unit of a quantity: of metres a height, of knots a way's speed, of miles an hour that of
 * wind, of rain hundredths of an inch.
 * @param {Quantity} quantity
 * @param {Units} units
 */
export const unitOf = (quantity, units) => (units.miles ? OF_MILES : METRIC)[quantity];
/**
 * A number of the table in words.
 * @param {Quantity} quantity
 * @param {number} n
 * @param {Units} units
 */
export function inWords(quantity, n, units) {
  const { unit, of, digits } = unitOf(quantity, units), value = of(n);
  return `${value.toFixed(digits(value)).replace(/^-(?=0(?:\.0*)?$)/, "")} ${unit}`;
}
/**
 * Metres of a way, in the unit that says enough.
 * @param {number} metres
 * @param {Units} units
 */
export function far(metres, units) {
  const [small, unit, large, long] = units.miles ? [FOOT, "ft", MILE, "mi"] : [1, "m", 1000, "km"];
  if (Math.round(metres / small) < 1000) return `${Math.round(metres / small)} ${unit}`;
  return `${(metres / large).toFixed(metres / large < 99.95 ? 1 : 0)} ${long}`;
}
/**
 * A round length of at least so many metres, for the scale of a map.
 * @param {number} metres
 * @param {Units} units
 */
export function scaleOf(metres, units) {
  const [small, unit, large, long] = units.miles ? [FOOT, "ft", MILE, "mi"] : [1, "m", 1000, "km"];
  const few = roundUp(metres / small), isFew = few * small < large * 0.999 && few < 5000;
  const n = isFew ? few : Math.max(1, roundUp(metres / large));
  return { metres: n * (isFew ? small : large),
    text: `${+n.toPrecision(6)} ${isFew ? unit : long}` };
}
