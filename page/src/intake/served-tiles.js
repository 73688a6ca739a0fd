// @ts-check
// The maps of tiles that a server has, of which one lies below the net: what of it is drawn is
// asked for by slices.

import { tell, widgets } from "../app/state.js";
import { accepted } from "../util/refused.js";
import { messageOf, printable } from "../util/text.js";
import { askFor } from "./http-get.js";

/** @typedef {import("../formats/sliced.js").Sliced} Sliced */
/** After so many milliseconds without a byte a slice is given up, and so often it is asked for. */
export const patience = { slice: 20000, tries: 3, again: 2000 };

/**
 * A file of a server, or a part of it.
 * @implements {Sliced}
 */
export class ServedFile {
  /** @param {string} url @param {number} size @param {number} begin */
  constructor(url, size, begin = 0) {
    this.url = url;
    this.size = size;
    this.begin = begin;
  }
  /** @param {number} begin @param {number} end */
  slice(begin, end) {
    const first = Math.min(begin, this.size), last = Math.min(end, this.size);
    return new ServedFile(this.url, Math.max(0, last - first), this.begin + first);
  }
  /** Its bytes: a server that is away for a moment is asked again. */
  async arrayBuffer() {
    for (let k = 1; this.size; k++) {
      const last = this.begin + this.size - 1;
      try {
        const { bytes } = await askFor(this.url, patience.slice,
          { cache: "default", headers: { Range: `bytes=${this.begin}-${last}` } });
        if (bytes.length !== this.size) throw new Error("the server answers with something else");
        return new Uint8Array(bytes).buffer;
      } catch (fault) {
        if (k >= patience.tries) throw fault;
        await new Promise(done => setTimeout(done, patience.again));
      }
    }
    return new ArrayBuffer(0);
  }
}
/** @param {string} name */
async function served(name) {
  const url = new URL(`tiles/${encodeURIComponent(name)}`, location.href).href;
  const { headers } = accepted(await fetch(url, { method: "HEAD" }));
  return new ServedFile(url, Number(headers.get("content-length")));
}

/** The map of the server that is drawn, or nothing. */
let drawn = "";
/**
 * Draws a map of the server in place of another one of it; none where the name is empty.
 * @param {string} name
 */
export async function drawServed(name) {
  const { sources } = widgets();
  if (drawn) sources.close(drawn);
  drawn = name;
  if (!name) return;
  try {
    const file = await served(name);
    if (drawn === name) await sources.open(name, file);
  } catch (fault) {
    tell(`${printable(name)}: can\u2019t be drawn as a map: ${messageOf(fault)}`, true);
  }
}
