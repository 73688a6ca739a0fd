// @ts-check
// Where a straight way leads through a circle on the earth, as `aprs-net` reckons it.

import { bearing, distance, RADIAN, RADIUS, vectorOf } from "./sphere.js";

/** @typedef {{ north: number, east: number }} Spot a place in degrees */
/**
 * The part of a way that lies within a circle: shares of the way from 0 to 1, and how many metres
 * it is from the middle where it is nearest.
 * @typedef {{ enters: number, leaves: number, metres: number }} Chord
 */
/** The radius of the ball that `aprs-net` reckons with, in metres. */
const BALL = 6371000;
/** Behind so many degrees north or south a plane is that of directions and distances. */
const POLAR = 85;

/** The degrees from one longitude to another by the shorter way. */
function eastward(/** @type {number} */ start, /** @type {number} */ end) {
  const way = (end - start) % 360;
  return way > 180 ? way - 360 : way <= -180 ? way + 360 : way;
}
/**
 * Metres between two places.
 * @param {Spot} a @param {Spot} b
 */
export const metresBetween = (a, b) =>
  distance(vectorOf(a.north, a.east), vectorOf(b.north, b.east)) * (BALL / RADIUS);
/**
 * Metres east and north of a middle, on a plane that touches the earth there.
 * @param {Spot} middle @param {Spot} spot
 */
function flat(middle, spot) {
  if (Math.max(Math.abs(middle.north), Math.abs(spot.north)) > POLAR) { // where meridians meet
    const metres = metresBetween(middle, spot);
    const way = RADIAN *
      bearing(vectorOf(middle.north, middle.east), vectorOf(spot.north, spot.east));
    return [metres * Math.sin(way), metres * Math.cos(way)];
  }
  const degree = BALL * RADIAN;
  return [eastward(middle.east, spot.east) * Math.cos(middle.north * RADIAN) * degree,
    (spot.north - middle.north) * degree];
}
/**
 * Where the straight way between two places is within so many metres of a middle; null where it
 * isn't.
 * @param {Spot} middle @param {number} radius @param {Spot} start @param {Spot} end
 * @returns {Chord | null}
 */
export function chordOf(middle, radius, start, end) {
  const [x, y] = flat(middle, start), [endX, endY] = flat(middle, end);
  const wayX = endX - x, wayY = endY - y, square = wayX * wayX + wayY * wayY;
  const closest = square ? -(x * wayX + y * wayY) / square : 0;
  const at = Math.max(0, Math.min(1, closest)), metres = Math.hypot(x + at * wayX, y + at * wayY);
  if (metres > radius) return null;
  if (!square) return { enters: 0, leaves: 1, metres };
  const apart = Math.hypot(x + closest * wayX, y + closest * wayY);
  const half = Math.sqrt(Math.max(0, radius * radius - apart * apart) / square);
  return { enters: Math.max(0, closest - half), leaves: Math.min(1, closest + half), metres };
}
