// @ts-check
// The page that reads logs begins as that of an event does, with nothing in it, and then with its
// workers.

import "./main-event.js";
import { add } from "./intake/adding.js";
import { madeNow } from "./intake/book.js";
import { files } from "./intake/file-table.js";
import { beginFollowing, pace } from "./intake/follow.js";
import { beginReading } from "./intake/reader-app.js";
import { beginRereading } from "./intake/reread.js";
import { eventPage } from "./intake/save-event-page.js";
import { beginServed } from "./intake/served.js";
import { run } from "./worker/pool.js";
import { limits } from "./worker/sources.js";

beginReading().then(async can => {
  if (!can) return;
  await beginFollowing();
  await beginServed();
  beginRereading();
});
// for tests
globalThis.aprsfiles = Object.freeze({ files, made: madeNow, run, add, pace, limits,
  eventPage: (/** @type {Record<string, string>} */ tiles) => eventPage(madeNow(), tiles) });
