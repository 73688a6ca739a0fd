// @ts-check
// What is new in a page that goes on: what wasn't there when the reader looked last.

/** @typedef {import("../net/things.js").Thing} Thing */
/** @typedef {import("../net/message-table.js").Message} Message */
/** @typedef {{ things: Thing[], messages: Message[], bulletins: Message[],
 *   end: number }} Net until when something was heard */

const messageKey = (/** @type {Message} */ it) =>
  JSON.stringify([it.source, it.addressee, it.id, it.text]);
/**
 * What a net has, by keys: of a message its state too, and of a station its status.
 * @param {Net} net
 * @returns {Map<string, string>}
 */
function contentsOf({ things, messages, bulletins }) {
  const contents = new Map(things.map(it => [it.key, it.status]));
  for (const it of [...messages, ...bulletins]) contents.set(messageKey(it), it.state);
  return contents;
}

/** What the reader has seen. */
export class Looked {
  constructor() {
    /** @type {Map<string, string> | null} what there was, or nothing yet */
    this.seen = null;
    this.at = 0;
    this.until = 0;
  }
  /**
   * All of a net has been seen, at a moment in seconds.
   * @param {Net} net
   * @param {number} at
   */
  look(net, at) {
    this.seen = contentsOf(net);
    this.at = at;
    this.until = net.end;
  }
  /**
   * Another part of the time is shown: what was heard before the reader looked isn't new.
   * @param {Net} net
   */
  reveal({ things, messages, bulletins, end }) {
    const isOld = (/** @type {{ last: number }} */ it) => it.last <= this.until;
    const old = { things: things.filter(isOld), messages: messages.filter(isOld),
      bulletins: bulletins.filter(isOld), end };
    if (this.seen) this.seen = new Map([...contentsOf(old), ...this.seen]);
  }
  /** Nothing is new any more. */
  forget() {
    this.seen = null;
  }
  /** @param {Thing} thing */
  isNewThing(thing) {
    return this.seen !== null && this.seen.get(thing.key) !== thing.status;
  }
  /** @param {Message} message */
  isNewMessage(message) {
    return this.seen !== null && this.seen.get(messageKey(message)) !== message.state;
  }
  /**
   * How much of a net is new.
   * @param {Net} net
   */
  count({ things, messages, bulletins }) {
    if (!this.seen) return 0;
    return things.filter(it => this.isNewThing(it)).length +
      [...messages, ...bulletins].filter(it => this.isNewMessage(it)).length;
  }
}
