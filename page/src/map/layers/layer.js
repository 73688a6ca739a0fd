// @ts-check
// What lies on a map. The map knows layers by this alone, and none of their kinds.

/** @typedef {import("../../geo/projection.js").Projection} Projection */
/**
 * What layers paint with: a canvas's pen, the colours of the style, a writer of texts, what the
 * reader chose, what paints all again once more of it is there, and what lower layers said of how
 * exact the ground is.
 * @typedef {{ pen: CanvasRenderingContext2D, colours: Record<string, string>,
 *   writer: import("./halo-text.js").Writer, settings: import("../../net/settings.js").Settings,
 *   again: () => void, note: string }} Context
 */
/**
 * The map as a layer has it.
 * @typedef {{ view: Projection, closer: (x: number, y: number) => void,
 *   paintSoon: () => void }} Surface
 */
/**
 * A layer paints itself, and gives what is said from now on of how exact the ground is, where it
 * says something. It may have places, which the map fits; `leads` says that those of others don't
 * matter for what is near. It may take a tap, and say what is told of a pixel: in a tip.
 * @typedef {{ paint: (context: Context, view: Projection) => string | void, leads?: boolean,
 *   places?: () => Float64Array[], tap?: (x: number, y: number, map: Surface) => boolean,
 *   tip?: (x: number, y: number,
 *     settings: import("../../net/settings.js").Settings) => (string | Node)[] }} Layer
 */
export {};
