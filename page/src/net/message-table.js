// @ts-check
// The table of messages.

import { textIn, Words } from "./interning.js";
import { Lines } from "./table-lines.js";
import { STEP } from "../util/tasks.js";

/**
 * What many messages have in common is one text, and what a message says by itself is read when it
 * is asked for: where its number and its text begin and end.
 * @typedef {{ source: string, addressee: string, gate: string, kind: string, state: string,
 *   first: number, last: number, answered: number, answeredBy: string, idAt: number, idEnd: number,
 *   textAt: number, textEnd: number }} Told
 */
/** The classes of what is sent to all, in place of one addressee. */
const TO_ALL = ["bulletin", "announcement", "weather-bulletin"];
/** A message as it stands in its table. */
export class Message {
  /** @param {Uint8Array} bytes the table @param {Told} told */
  constructor(bytes, told) {
    this.bytes = bytes;
    this.told = told;
  }
  get source() { return this.told.source; }
  get addressee() { return this.told.addressee; }
  /** Who passed its first copy on; empty where its sender itself was heard. */
  get gate() { return this.told.gate; }
  get state() { return this.told.state; }
  get first() { return this.told.first; }
  get last() { return this.told.last; }
  get answered() { return this.told.answered; }
  get answeredBy() { return this.told.answeredBy; }
  get isBulletin() { return TO_ALL.includes(this.told.kind); }
  /** Whether somebody says something to somebody, and no station to another one. */
  get isTraffic() { return this.told.kind === "message"; }
  get id() {
    return textIn(this.bytes, this.told.idAt, this.told.idEnd);
  }
  get text() {
    return textIn(this.bytes, this.told.textAt, this.told.textEnd);
  }
}
/**
 * The messages of their table.
 * @param {Uint8Array} bytes @returns {Generator<unknown, Message[]>}
 */
export function* messagesOf(bytes) {
  const lines = new Lines(bytes), of = (/** @type {string} */ name) => lines.names.indexOf(name);
  const [source, addressee, number, text, gate, kind, outcome, first, last, answered, answerer] =
    ["source", "addressee", "number", "text", "gate", "class", "outcome", "first", "last",
      "outcome_moment", "answer_source"].map(of);
  const words = new Words(bytes, it => it);
  const word = (/** @type {number} */ column) =>
    words.of(lines.beginOf(column), lines.endOf(column));
  /** @type {Message[]} */
  const messages = [];
  while (lines.next()) {
    messages.push(new Message(bytes, { source: word(source), addressee: word(addressee),
      gate: word(gate), kind: word(kind), state: word(outcome), first: lines.seconds(first),
      last: lines.seconds(last), answeredBy: word(answerer),
      answered: lines.has(answered) ? lines.seconds(answered) : NaN,
      idAt: lines.beginOf(number), idEnd: lines.endOf(number), textAt: lines.beginOf(text),
      textEnd: lines.endOf(text) }));
    if (messages.length % STEP === 0) yield;
  }
  return messages;
}
