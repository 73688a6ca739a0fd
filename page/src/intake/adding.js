// @ts-check
// What is dropped or chosen: files are read and checked, take the places of older ones, and make
// the book anew.

import { bring, bringBaseMap, bringLines } from "../app/add-layer.js";
import { goOnFromHere } from "../app/header.js";
import { widgets } from "../app/state.js";
import { beginTime, madeNow, tellAgain, work } from "./book.js";
import { files } from "./file-table.js";
import { handleOf } from "./folders.js";
import {
  fileOf, isBeingWritten, isGrown, isSame, leaveOut, look, markOf, take, takePlace,
} from "./intake.js";
import { options } from "./options.js";
import { say, tellProgress } from "./progress.js";
import { beginEarly } from "./runs.js";
import { tileOf } from "../map/layers/tile-layer.js";
import { messageOf } from "../util/text.js";

/** @typedef {import("./intake.js").Given} Given */
/** @typedef {import("./folders.js").Dropped} Dropped */
/**
 * Takes a picture of a tile of the reader's own map; says whether it is one.
 * @param {File & { way?: string }} file
 */
function takeTile(file) {
  const tile = tileOf(file.way || file.webkitRelativePath || "");
  if (!tile) return false;
  const { layers: { tiles }, sources } = widgets();
  tiles.take(tile, file);
  sources.show();
  return true;
}
/**
 * Takes a map of tiles or a picture of one, or else a file as what it is.
 * @param {File} file
 */
async function takeFile(file) {
  const fault = await bringBaseMap(file);
  if (fault === "") return null;
  const it = await take(file, bring);
  if (it?.unread && fault) it.unread += `, and ${fault}`;
  if (it?.kind === "log") Object.assign(it, { handle: handleOf(file), mark: markOf(file) });
  return it;
}
const UNREAD = "drop the files in it, or choose it as a folder";
/**
 * Takes files, and says what goes wrong.
 * @param {Iterable<Dropped>} dropped
 */
export async function add(dropped) {
  try {
    await takeAll(dropped);
  } catch (fault) {
    tellProgress(1);
    say(messageOf(fault), true);
  }
}
/**
 * Files that are being checked; one that comes again meanwhile is one of them.
 * @type {Given[]}
 */
const coming = [];
/** @param {Given} file @param {number} gap */
async function lookAt(file, gap) {
  const leavesOut = file.leftOut.length > 0 && !file.isUnfinished;
  file.leftOut = [];
  await look(file, gap);
  file.isUnfinished = !leavesOut && isBeingWritten(file);
  // what was left out of a log is left out of it as it has grown
  if (file.isUnfinished || leavesOut && file.damage.length) {
    leaveOut(file);
    await look(file, gap);
  }
  coming.splice(coming.indexOf(file), 1);
  if (!files.includes(file)) files.push(file);
}
/**
 * The file that another one is as it has grown, or nothing.
 * @param {Given} it
 */
async function olderOf(it) {
  for (const one of files) if (await isGrown(one, it)) return one;
  return null;
}
/**
 * What is new of files that were read: themselves, or the older ones whose places they take.
 * @param {Given[]} list
 */
async function newOf(list) {
  /** @type {Given[]} */
  const found = [];
  for (const it of list) {
    // one that is there already says nothing new
    if ([...files, ...coming, ...found].some(one => isSame(one, it))) continue;
    const older = await olderOf(it);
    if (older) {
      takePlace(older, it);
      goOnFromHere();
    }
    found.push(older || it);
  }
  return found;
}
/**
 * Takes what else is dropped than files to be read: tiles of a map, and folders that can't be read.
 * @param {Iterable<Dropped>} dropped
 */
function takeOthers(dropped) {
  const plain = [];
  for (const it of dropped)
    if (it instanceof File) {
      if (!takeTile(it)) plain.push(it);
    } else if (!files.some(one => one.name === it.name))
      files.push(fileOf(it.name, "folder", new Uint8Array(), { unread: UNREAD, fault: UNREAD }));
  return plain;
}
/**
 * Takes files: each is checked while the runs over all of them go on.
 * @param {Iterable<Dropped>} dropped
 */
async function takeAll(dropped) {
  beginTime();
  tellProgress(0, "reading");
  const { gap } = options, many = files.length, plain = takeOthers(dropped);
  const all = (await Promise.all(plain.map(takeFile))).flatMap(it => it || []);
  const pages = all.flatMap(({ name, lines }) => lines ? [{ name, lines }] : []);
  const read = await newOf(all.filter(it => !it.lines));
  if (pages.length) bringLines(pages);
  const isNew = read.length > 0 || files.length > many;
  if (!isNew && coming.length) return;
  if (madeNow() && !isNew) return tellAgain();
  coming.push(...read);
  const whole = [...files.filter(it => it.taken), ...read.filter(it => !it.unread)];
  if (read.length && whole.every(it => it.kind !== "KISS stream")) beginEarly(whole, gap);
  let done = 0;
  await Promise.all(read.map(async file => {
    await lookAt(file, gap);
    tellProgress(0.3 * ++done / read.length, "reading");
  }));
  files.sort((a, b) => a.name < b.name ? -1 : a.name > b.name ? 1 : 0);
  await work();
}
/** Looks at all files again that these want. */
export async function lookAgain(/** @type {Given[]} */ list) {
  for (const it of list) await look(it, options.gap);
}
