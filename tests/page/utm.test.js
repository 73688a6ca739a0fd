import assert from "node:assert/strict";
import { test } from "node:test";
import { mgrsText, utmOf, utmText, zoneOf } from "../../page/src/geo/utm.js";

const at = (degrees, minutes, seconds) => degrees + minutes / 60 + seconds / 3600;
function near(north, east, zone, easting, northing) {
  const utm = utmOf(north, east);
  assert.equal(`${utm.zone}${utm.band}`, zone);
  assert.ok(Math.abs(utm.easting - easting) < 1e-3, `${utm.easting} is not ${easting}`);
  assert.ok(Math.abs(utm.northing - northing) < 1e-3, `${utm.northing} is not ${northing}`);
}

test("places are those of PROJ to a millimetre", () => {
  // each as PROJ 9.1.1 has it (Debian's proj-bin), of north and east in degrees:
  // echo '33.33424 44.40363' | cs2cs -f %.4f EPSG:4326 EPSG:32638
  // zone 38 north is 32638, and zone 56 south 32756
  near(at(43, 38, 33.24), -at(79, 23, 13.7), "17T", 630084.3105, 4833438.5488); // the CN Tower
  near(at(38, 53, 22.08269), -at(77, 2, 6.86575), "18S", 323483.1448, 4306479.5101); // Washington
  near(33.33424, 44.40363, "38S", 444500.2034, 3688500.5438); // Baghdad
  near(-33.8568, 151.2153, "56H", 334900.5697, 6252288.7529); // Sydney
  near(60.393, 5.3242, "32V", 297480.122, 6700831.0221); // Bergen, in the wide zone 32
  near(78.2232, 15.6267, "33X", 514278.7151, 8683355.4695); // Longyearbyen
  assert.equal(utmText(33.33424, 44.40363), "38S 444500 3688501");
  assert.equal(mgrsText(at(38, 53, 22.08269), -at(77, 2, 6.86575)), "18S UJ 23483 06479");
  // 4QFJ1234567890 of Wikipedia's Military Grid Reference System, in the middle of its square
  assert.equal(mgrsText(21.409796 + 0.5 / 111000, -157.916069 - 0.5 / 103000), "4Q FJ 12345 67890");
});
test("places on the middle of a zone and on the equator", () => {
  near(0, 3, "31N", 500000, 0);
  near(-1e-9, 3, "31M", 500000, 1e7);
  near(0, 0, "31N", 166021.4431, 0);
  // the arc from the equator to 45 degrees, times 0.9996
  near(45, 9, "32T", 500000, 4982950.4002);
  near(-45, 9, "32G", 500000, 5017049.5998);
});
test("zones end at each six degrees, and 180 degrees east are 180 west", () => {
  for (const [east, zone] of [[-180, 1], [-174.0001, 1], [-174, 2], [-0.0001, 30], [0, 31],
    [5.9999, 31], [6, 32], [179.9999, 60]]) assert.equal(zoneOf(50, east), zone, east);
  assert.equal(utmOf(50, 180).zone, 1);
  assert.equal(utmOf(50, 181).zone, 1);
  assert.equal(utmOf(50, -186).zone, 60);
});
test("bands end at each eight degrees, and the last has twelve", () => {
  for (const [north, band] of [[-80, "C"], [-72.0001, "C"], [-72, "D"], [-0.0001, "M"], [0, "N"],
    [55.9999, "U"], [56, "V"], [63.9999, "V"], [64, "W"], [71.9999, "W"], [72, "X"], [84, "X"]])
    assert.equal(utmOf(north, -30).band, band, north);
});
test("south-west Norway is zone 32, and beside it nothing is", () => {
  for (const [north, east, zone] of [[56, 3, 32], [63.9999, 3, 32], [60, 5.9999, 32],
    [60, 11.9999, 32], [60, 12, 33], [60, 2.9999, 31], [55.9999, 5.9999, 31], [64, 5.9999, 31]])
    assert.equal(zoneOf(north, east), zone, `${north} ${east}`);
  assert.equal(mgrsText(60.393, 5.3242), "32V KN 97480 00831");
});
test("Svalbard has four wide zones, and beside it nothing has", () => {
  for (const [north, east, zone] of [[72, 0, 31], [72, 8.9999, 31], [72, 9, 33], [84, 20.9999, 33],
    [80, 21, 35], [80, 32.9999, 35], [80, 33, 37], [80, 41.9999, 37], [80, 42, 38],
    [80, -0.0001, 30], [71.9999, 8.9999, 32], [71.9999, 12, 33]])
    assert.equal(zoneOf(north, east), zone, `${north} ${east}`);
});
test("near a pole there is neither", () => {
  for (const north of [84.0001, 90, -80.0001, -90, NaN]) {
    assert.equal(utmOf(north, 10), null, north);
    assert.equal(utmText(north, 10) + mgrsText(north, 10), "");
  }
});
