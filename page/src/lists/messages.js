// @ts-check
// Messages and bulletins.

import { dealtNodes } from "./dealt-mark.js";
import { cell, List, newMark, pickButton, timeCell } from "./table-view.js";
import { unansweredOf } from "../net/alarms.js";
import { air, callIn, make } from "../util/dom.js";
import { said } from "../util/text.js";
import { fullText } from "../util/time.js";

/** @typedef {import("../net/message-table.js").Message} Message */
/** @typedef {import("../net/settings.js").Settings} Settings */
/** @typedef {import("./dealt-mark.js").Marking} Marking */
/** @typedef {(key: string) => unknown} OnPick */
/**
 * What lists of messages have to know of the page: what is new, the reader's own call, the key of a
 * call that was heard, and what is dealt with.
 * @typedef {Marking & { isNewMessage: (it: Message) => boolean, ownCall: string,
 *   keyOf: (call: string) => string | null, settings: Settings }} View
 */
/** The states of messages, in the order in which they stand, and those that want doing. */
const STATES = ["unanswered", "rejected", "unnumbered", "acknowledged"], OPEN = 2;
/**
 * Whether a message waits for somebody, and nobody has dealt with it yet.
 * @param {Message} it @param {Pick<View, "markOf">} view
 */
export const isOpen = (it, { markOf }) =>
  STATES.indexOf(it.state) < OPEN && !markOf(unansweredOf(it));
/** Whether a message is to or from the reader's own call. */
export const isMine = (/** @type {Message} */ it, /** @type {string} */ call) =>
  call !== "" && (it.addressee === call || it.source === call);
/**
 * The place of a message among them: what waits for the reader comes first.
 * @param {Message} it @param {Pick<View, "markOf" | "ownCall">} view
 */
export function placeOf(it, view) {
  const state = STATES.indexOf(it.state);
  if (!isOpen(it, view)) return state < OPEN ? STATES.length + 2 : state + 2;
  const { ownCall } = view;
  return !isMine(it, ownCall) ? state + 2 : it.addressee === ownCall ? 0 : 1;
}
/**
 * What is said of a message's state beside the state.
 * @param {Message} it
 * @param {Settings} settings
 */
function answerOf(it, settings) {
  if (Number.isNaN(it.answered)) return "";
  return (it.answeredBy ? `by ${settings.names.shown(it.answeredBy)}, ` : "") +
    fullText(it.answered, settings);
}
/** A text, of which the style shows so many lines; one of octets alone would hide other rows. */
const textCell = (/** @type {string} */ text, /** @type {(Node | string)[]} */ ...rest) =>
  make("td", { className: "text", title: said(text) }, air(text), ...rest);
/**
 * Who sent a message, or to whom: a way to its place, where it was heard itself.
 * @param {string} call @param {View} view @param {OnPick} onPick
 */
function whoOf(call, { settings, keyOf }, onPick) {
  const shown = callIn(settings.names.shown(call)), key = keyOf(call);
  return key ? pickButton(shown, () => onPick(key)) : shown;
}
/**
 * What a person calls a message.
 * @param {Message} it @param {View} view
 */
const messageWords = (it, { settings: { names } }) =>
  `message from ${names.shown(it.source)} to ${names.shown(it.addressee)}, ${said(it.text)}`;
/** @param {Message} it @param {View} view @param {OnPick} onPick */
function messageRow(it, view, onPick) {
  const { isNewMessage, settings, ownCall } = view, waits = STATES.indexOf(it.state) < OPEN;
  const marks = [isOpen(it, view) || !waits ? it.state : "dealt"];
  if (isNewMessage(it)) marks.push("new");
  if (isMine(it, ownCall)) marks.push("mine");
  return make("tr", { className: marks.join(" ") },
    make("td", { className: "state", textContent: it.state, title: answerOf(it, settings) },
      ...newMark(isNewMessage(it))),
    cell("call from", whoOf(it.source, view, onPick),
      it.gate ? make("small", { textContent: ` by ${it.gate}` }) : null),
    cell("call to", whoOf(it.addressee, view, onPick)),
    textCell(it.text,
      ...waits ? dealtNodes(unansweredOf(it), messageWords(it, view), view) : []),
    cell("id", it.id), timeCell(it.first, settings), timeCell(it.last, settings));
}
/** @param {HTMLElement} box @param {View} view @param {OnPick} onPick */
export function messageList(box, view, onPick) {
  const row = (/** @type {Message} */ it) => messageRow(it, view, onPick);
  return new List(box, { id: "messages", caption: "messages", row, keyOf: unansweredOf, columns: [
    { title: "state", value: it => placeOf(it, view) }, { title: "from", value: it => it.source },
    { title: "to", value: it => it.addressee }, { title: "text", value: it => it.text },
    { title: "no.", value: it => it.id }, { title: "first", number: true, value: it => it.first },
    { title: "last", number: true, value: it => it.last },
  ] });
}
/**
 * The messages in the order in which they stand.
 * @param {Message[]} messages @param {Pick<View, "markOf" | "ownCall">} view
 */
export const inOrder = (messages, view) => messages.map(it => ({ it, place: placeOf(it, view) }))
  .sort((a, b) => a.place - b.place || b.it.last - a.it.last).map(({ it }) => it);

/** @param {HTMLElement} box @param {View} view */
export function bulletinList(box, view) {
  const row = (/** @type {Message} */ it) => {
    const { settings } = view, isNew = view.isNewMessage(it);
    return make("tr", { className: isNew ? "new" : "" },
      cell("call", air(it.addressee), ...newMark(isNew)),
      cell("call", callIn(settings.names.shown(it.source))), textCell(it.text),
      timeCell(it.first, settings), timeCell(it.last, settings));
  };
  return new List(box, { id: "bulletins", caption: "bulletins", row, columns: [
    { title: "bulletin", value: it => it.addressee }, { title: "from", value: it => it.source },
    { title: "text", value: it => it.text },
    { title: "first", number: true, value: it => it.first },
    { title: "last", number: true, value: it => it.last },
  ] });
}
