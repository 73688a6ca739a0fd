// @ts-check
// What the page that reads logs has with it, beside its script: the module, the script of its
// workers, an example, and the page of an event, packed, without its coast.

import { textOf } from "../util/dom.js";

/** @type {{ worker: string, module: string, example: string, event: string }} */
export const contents = JSON.parse(textOf("parts"));
