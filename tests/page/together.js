// Runs the tests of several files in one process: those before which the same stands, such as a
// stand-in for a document. So Node and the page's modules are loaded once for all of them.
import fs from "node:fs";
import { before } from "node:test";

const FOLDER = new URL("./", import.meta.url);
/** What may stand before the modules that are tested: each makes other things global. */
const STANDS = ["window", "document", "stand"];
/**
 * The first of these that a test file has, or "". Pages in a window have a state, which stays: the
 * Makefile runs each by itself.
 */
const standOf = name => {
  const text = fs.readFileSync(new URL(name, FOLDER), "utf8");
  return STANDS.find(it => text.includes(`"./${it}.js"`)) ?? "";
};
/** Loads the tests with this before them; none begins before all are loaded. */
export function runBehind(stand) {
  const names = fs.readdirSync(FOLDER).filter(it => it.endsWith(".test.js")).sort()
    .filter(it => standOf(it) === stand);
  const loading = (async () => {
    for (const name of names) await import(new URL(name, FOLDER).href);
  })();
  before(() => loading);
}
