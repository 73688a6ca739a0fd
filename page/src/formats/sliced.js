// @ts-check
// A file that is read by slices, as they are needed.

/**
 * A file of this machine, which is a Blob, or one of a server.
 * @typedef {{ size: number, slice: (begin: number, end: number) => Sliced,
 *   arrayBuffer: () => Promise<ArrayBuffer> }} Sliced
 */
export {};
