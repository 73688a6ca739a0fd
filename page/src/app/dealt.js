// @ts-check
// What somebody deals with: marks of alarms, who went home, and who goes on under another call.
// They are entries of a journal. A net that is served shares it; else this browser keeps it by the
// title of the net.

import { page, tell } from "./state.js";
import { Journal } from "../desks/journal.js";
import { storeOf } from "../ics309/own-lines.js";
import { otherCallOf } from "../net/alarms.js";
import { keepsNo } from "../util/text.js";

/** Nobody takes what a page by itself writes down: it stays in this browser. */
const keepHere = async () => null;
/** Whether the page has said last that its marks would be lost. */
let isTold = false;
/**
 * Has the marks of a net by its title, where no journal is shared, and those that stand in its
 * page. A net that gets another title takes those along that were set since it began.
 * @param {string} title
 * @param {string} given
 * @param {() => void} onChange
 * @param {number} begin of the net, in seconds
 */
export function openMarks(title, given, onChange, begin = Infinity) {
  const key = `aprsbook marks: ${title}`, before = page.marks;
  if (page.journal) return;
  const isSame = before?.key === key;
  const marks = isSame ? before : new Journal("", keepHere, storeOf(), Date.now, key);
  page.marks = marks;
  marks.onChange = () => {}; // what is given is drawn with all else
  if (before && !isSame) marks.takeAlong(before, begin);
  marks.unite(given);
  marks.onChange = () => {
    if (marks.isAtRisk !== isTold) tell(marks.isAtRisk ? keepsNo("marks") : "", marks.isAtRisk);
    isTold = marks.isAtRisk;
    onChange();
  };
}
/** Has what another tab marks in this one too, where no server tells it. */
export const hearTabs = () => addEventListener("storage", ({ key }) => {
  if (!page.journal && key === page.marks?.key) page.marks?.unite();
});
/** All that is marked, as a page of the net carries it. */
export const marksText = () => [...page.marks?.entries.keys() || []].join("\n");
/** The call that each had before which goes on under another one. */
export const callsBefore = () => new Map([...page.marks?.marks || []]
  .filter(([alarm]) => alarm.startsWith(otherCallOf("")))
  .map(([alarm, [mark]]) => [String(mark.note), alarm.slice(otherCallOf("").length)]));
