// @ts-check
// The layers of the map, from the lowest one up.

import { CoastLayer } from "../map/layers/coast-layer.js";
import { Graticule } from "../map/layers/graticule.js";
import { ImageOverlays } from "../map/layers/image-overlay.js";
import { TileLayer } from "../map/layers/tile-layer.js";
import { VectorOverlays } from "../map/layers/vector-overlay.js";
import { MeasureLayer } from "../map/measure.js";
import { scaleBar } from "../map/scale-bar.js";
import { StationLayer } from "../map/station-layer.js";

/**
 * Layers by their names.
 * @param {{ onPick: (key: string) => void, onDense: (text: string) => void,
 *   onMeasure: () => void }} hears
 */
export const makeLayers = ({ onMeasure, ...hears }) => ({
  coast: new CoastLayer(), tiles: new TileLayer(), images: new ImageOverlays(),
  graticule: new Graticule(), vectors: new VectorOverlays(), stations: new StationLayer(hears),
  measure: new MeasureLayer(onMeasure),
});
/**
 * The same in the order in which they are painted.
 * @param {ReturnType<typeof makeLayers>} of
 * @returns {import("../map/layers/layer.js").Layer[]}
 */
export const inOrder = of => [of.coast, of.tiles, of.images, of.graticule, of.vectors, of.stations,
  of.measure, of.graticule.names, scaleBar];
