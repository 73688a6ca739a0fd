// @ts-check
// The earth as a ball: places are unit vectors, so that the date line and the poles are nothing
// special.

export const RADIUS = 6371008.8; // metres
export const RADIAN = Math.PI / 180;

/**
 * @param {number} north
 * @param {number} east
 */
export function vectorOf(north, east) {
  const level = Math.cos(north * RADIAN);
  return [level * Math.cos(east * RADIAN), level * Math.sin(east * RADIAN),
    Math.sin(north * RADIAN)];
}
/**
 * @param {ArrayLike<number>} vector
 * @returns {[number, number]} north and east
 */
export function degreesOf({ 0: x, 1: y, 2: z }) {
  return [Math.atan2(z, Math.hypot(x, y)) / RADIAN, Math.atan2(y, x) / RADIAN];
}
/**
 * Metres from one place to another.
 * @param {ArrayLike<number>} a
 * @param {ArrayLike<number>} b
 */
export function distance(a, b) {
  const half = Math.hypot(a[0] - b[0], a[1] - b[1], a[2] - b[2]) / 2;
  return 2 * RADIUS * Math.asin(Math.min(1, half));
}
/** @param {ArrayLike<number>} a @param {ArrayLike<number>} b */
const dot = (a, b) => a[0] * b[0] + a[1] * b[1] + a[2] * b[2];

/**
 * East and north at a place, as vectors.
 * @param {number} north
 * @param {number} east
 */
export function frameAt(north, east) {
  const [sinN, cosN] = [Math.sin(north * RADIAN), Math.cos(north * RADIAN)];
  const [sinE, cosE] = [Math.sin(east * RADIAN), Math.cos(east * RADIAN)];
  return { east: [-sinE, cosE, 0], north: [-sinN * cosE, -sinN * sinE, cosN] };
}
/**
 * The course from one place to another as it begins, in degrees from north by east.
 * @param {ArrayLike<number>} from
 * @param {ArrayLike<number>} to
 */
export function bearing(from, to) {
  const [north, east] = degreesOf(from), frame = frameAt(north, east);
  return (Math.atan2(dot(frame.east, to), dot(frame.north, to)) / RADIAN + 360) % 360;
}
/** More places than these aren't asked where most are. */
const ASKED = 5000;
/**
 * A cap of the earth that has most of the places of these lines: ten times as wide as what three in
 * four of them need, and 20 km at least. A few places far away, such as those of damaged fixes, are
 * outside.
 * @param {Float64Array[]} lines
 * @returns {(line: ArrayLike<number>, n: number) => boolean} whether the nth place is in it
 */
export function capOf(lines) {
  const all = lines.reduce((sum, it) => sum + it.length / 3, 0), step = Math.ceil(all / ASKED) || 1;
  /** @type {number[][]} */
  const places = [];
  let n = 0;
  for (const line of lines)
    for (let k = 0; k < line.length; k += 3)
      if (n++ % step === 0) places.push([line[k], line[k + 1], line[k + 2]]);
  if (places.length < 4) return () => true;
  const middle = [0, 1, 2].map(i =>
    places.map(it => it[i]).sort((a, b) => a - b)[places.length >> 1]);
  const off = (/** @type {ArrayLike<number>} */ it, at = 0) =>
    (it[at] - middle[0]) ** 2 + (it[at + 1] - middle[1]) ** 2 + (it[at + 2] - middle[2]) ** 2;
  const offs = places.map(it => off(it)).sort((a, b) => a - b);
  // squares of them
  const most = Math.max(100 * offs[Math.floor(0.75 * (offs.length - 1))], (20000 / RADIUS) ** 2);
  return (line, k) => off(line, 3 * k) <= most;
}
