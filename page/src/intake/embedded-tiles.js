// @ts-check
// The tiles of the reader's own map that a saved page carries: those around the places, level by
// level, as long as a whole level has room. aprs-net page does the same.

import { isPicture } from "../formats/file-kinds.js";
import { capOf, degreesOf, RADIAN } from "../geo/sphere.js";
import { tilesOf } from "../map/layers/tile-layer.js";

/** @typedef {{ south: number, north: number, west: number, east: number }} Box in degrees */
/**
 * What is carried: tiles in base64, by their ways; and the first level that is left out, where
 * one is.
 * @typedef {{ tiles: Record<string, string>, leftOut: number | null }} Carried
 */
/** Of a box, in degrees: its least side before it is widened, how far north it lies, its height. */
const LEAST = 0.09, MOST_NORTH = 85, MOST_SPAN = 6;
/** A level of more tiles than these isn't looked through. */
const MOST_TILES = 40000;

/**
 * The places of tracks, but for a few that are far from all others.
 * @param {Float64Array[]} tracks
 */
export function nearIn(tracks) {
  const isIn = capOf(tracks), places = [];
  for (const line of tracks)
    for (let k = 0; 3 * k < line.length; k++) {
      if (!isIn(line, k)) continue;
      const [north, east] = degreesOf(line.subarray(3 * k, 3 * k + 3));
      places.push({ north, east });
    }
  return places;
}
/**
 * A box around places that is three times as wide and as high, for any window; null where that is
 * too wide.
 * @param {{ north: number, east: number }[]} places
 * @returns {Box | null}
 */
export function boxAround(places) {
  if (!places.length) return null;
  const [{ east: first }] = places;
  const east = places.map(it => first + ((it.east - first + 540) % 360 - 180));
  const least = (/** @type {number[]} */ list) => list.reduce((a, b) => Math.min(a, b));
  const most = (/** @type {number[]} */ list) => list.reduce((a, b) => Math.max(a, b));
  const norths = places.map(it => it.north), low = least(norths), high = most(norths);
  const west = least(east), right = most(east), level = Math.cos((low + high) / 2 * RADIAN);
  const side = Math.max(high - low, (right - west) * level, LEAST);
  const up = 1.5 * side - (high - low) / 2, beside = 1.5 * side / level - (right - west) / 2;
  const box = { south: low - up, north: high + up, west: west - beside, east: right + beside };
  const span = Math.max((box.east - box.west) * level, box.north - box.south);
  return span > MOST_SPAN || Math.max(-box.south, box.north) > MOST_NORTH ? null : box;
}
/** @param {Uint8Array} bytes */
function base64Of(bytes) {
  let text = "";
  for (let at = 0; at < bytes.length; at += 0x8000)
    text += String.fromCharCode(...bytes.subarray(at, at + 0x8000));
  return btoa(text);
}
/**
 * The tiles of a level in a box that are pictures, in base64; null where they need more room.
 * @param {{ find: (key: string) => Promise<Blob | null> }} map
 * @param {Box} box
 * @param {number} z
 * @param {number} room in bytes
 */
async function levelOf(map, box, z, room) {
  /** @type {Record<string, string>} */
  const tiles = {}, keys = tilesOf(box, z, MOST_TILES);
  let left = room;
  for (const key of keys || []) {
    const blob = await map.find(key);
    if (!blob) continue;
    const bytes = new Uint8Array(await blob.arrayBuffer());
    if (!isPicture(bytes)) continue;
    tiles[key] = base64Of(bytes);
    left -= tiles[key].length;
    if (left < 0) return null;
  }
  return keys && { tiles, left };
}
/**
 * The tiles of a map in a box, as long as a whole level has room in so many bytes.
 * @param {{ least: number, most: number, find: (key: string) => Promise<Blob | null> }} map
 * @param {Box} box
 * @param {number} room in bytes
 * @returns {Promise<Carried>}
 */
export async function carriedIn(map, box, room) {
  /** @type {Carried} */
  const carried = { tiles: {}, leftOut: null };
  for (let z = map.least; z <= map.most; z++) {
    const level = await levelOf(map, box, z, room);
    if (!level) return { ...carried, leftOut: z };
    Object.assign(carried.tiles, level.tiles);
    room = level.left;
  }
  return carried;
}
