// @ts-check
// The limits of logs and books, written by build/limits.py of the definitions.

/** Seconds between neighbours of a transmission, if nothing says another. */
export const STANDARD_GAP = 30;
/** Seconds of the widest gap. */
export const GREATEST_GAP = 3600;
/** Bytes of a log's line before its end. */
export const MOST_LINE = 8192;
/** Letters of a receiver's name. */
export const MOST_NAME = 16;
/** Milliseconds since 1970 of the last moment. */
export const LAST_MILLISECOND = 4102444799999;
/** Bytes of a frame of KISS. */
export const MOST_KISS_BYTES = 1024;
/** Bytes of an input. */
export const MOST_INPUT = 1073741824;
