// @ts-check
// Places in metres: UTM and MGRS on the ellipsoid WGS 84 (NGA.STND.0037, The universal grids), by
// Krüger's series, which is good to a millimetre within a zone.

import { RADIAN } from "./sphere.js";

/** @typedef {{ zone: number, band: string, easting: number, northing: number }} Utm in metres */

const AXIS = 6378137, FLAT = 1 / 298.257223563, SCALE = 0.9996;
const FALSE_EASTING = 500000, FALSE_NORTHING = 1e7;
/** From 80 degrees south to 84 degrees north; what is beyond is UPS, which isn't given here. */
const LEAST = -80, MOST = 84;
const BANDS = "CDEFGHJKLMNPQRSTUVWX";
/** Squares of 100 km: their columns, by the zone in turns of three, and their rows. */
const COLUMNS = ["STUVWXYZ", "ABCDEFGH", "JKLMNPQR"], ROWS = "ABCDEFGHJKLMNPQRSTUV";

const N = FLAT / (2 - FLAT), ECCENTRICITY = Math.sqrt(FLAT * (2 - FLAT));
const RECTIFIED = AXIS / (1 + N) * (1 + N ** 2 / 4 + N ** 4 / 64);
const ALPHA = [N / 2 - 2 / 3 * N ** 2 + 5 / 16 * N ** 3 + 41 / 180 * N ** 4,
  13 / 48 * N ** 2 - 3 / 5 * N ** 3 + 557 / 1440 * N ** 4,
  61 / 240 * N ** 3 - 103 / 140 * N ** 4, 49561 / 161280 * N ** 4];

/**
 * The letter of a band of eight degrees; the last has twelve.
 * @param {number} north
 */
const bandOf = north => BANDS[Math.min(19, Math.floor((north - LEAST) / 8))];
/**
 * The zone of a place, with the exceptions of Norway and Svalbard.
 * @param {number} north
 * @param {number} east from -180 up to 180
 */
export function zoneOf(north, east) {
  const band = bandOf(north);
  if (band === "V" && east >= 3 && east < 12) return 32;
  if (band === "X" && east >= 0 && east < 42) return [31, 33, 35, 37][Math.floor((east + 3) / 12)];
  return Math.floor((east + 180) / 6) % 60 + 1;
}
/**
 * A place in UTM, or null where it is too near to a pole.
 * @param {number} north
 * @param {number} east
 * @returns {Utm | null}
 */
export function utmOf(north, east) {
  if (!(north >= LEAST && north <= MOST)) return null;
  const turned = ((east + 180) % 360 + 360) % 360 - 180, zone = zoneOf(north, turned);
  const away = (turned - (6 * zone - 183)) * RADIAN, sine = Math.sin(north * RADIAN);
  const t = Math.sinh(Math.atanh(sine) -
    ECCENTRICITY * Math.atanh(ECCENTRICITY * sine));
  const xi = Math.atan2(t, Math.cos(away)), eta = Math.asinh(Math.sin(away) /
    Math.hypot(t, Math.cos(away)));
  let up = xi, right = eta;
  ALPHA.forEach((alpha, k) => {
    const j = 2 * (k + 1);
    up += alpha * Math.sin(j * xi) * Math.cosh(j * eta);
    right += alpha * Math.cos(j * xi) * Math.sinh(j * eta);
  });
  return { zone, band: bandOf(north), easting: FALSE_EASTING + SCALE * RECTIFIED * right,
    northing: (north < 0 ? FALSE_NORTHING : 0) + SCALE * RECTIFIED * up };
}
/**
 * A place in UTM as it is written, to the metre: zone and band, then metres east and north.
 * @param {number} north
 * @param {number} east
 */
export function utmText(north, east) {
  const utm = utmOf(north, east);
  return utm ? `${utm.zone}${utm.band} ${Math.round(utm.easting)} ${Math.round(utm.northing)}` : "";
}
/**
 * A place in MGRS, to the metre below; empty where it is too near to a pole.
 * @param {number} north
 * @param {number} east
 */
export function mgrsText(north, east) {
  const utm = utmOf(north, east);
  if (!utm) return "";
  const { zone, band, easting, northing } = utm;
  const [right, up] = [Math.floor(easting), Math.floor(northing)];
  const column = COLUMNS[zone % 3][Math.floor(right / 1e5) - 1];
  const row = ROWS[(Math.floor(up / 1e5) + (zone % 2 ? 0 : 5)) % 20];
  const digits = (/** @type {number} */ it) => String(it % 1e5).padStart(5, "0");
  return `${zone}${band} ${column}${row} ${digits(right)} ${digits(up)}`;
}
