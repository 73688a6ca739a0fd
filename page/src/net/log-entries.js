// @ts-check
// The entries of a communications log: messages, bulletins, and lines that an operator wrote.

/** @typedef {import("./message-table.js").Message} Message */
/**
 * A line: a moment in seconds since 1970, from whom to whom, the message's number and its text; and
 * the desk or the page that wrote it, where that is another one.
 * @typedef {{ at: number, from: string, to: string, id: string, text: string, desk?: string }} Line
 */
/**
 * An entry of the log: its number in it, a moment, from whom to whom, the message's number, what it
 * says, and what is noted behind it. `own` is the operator's line, where it is one.
 * @typedef {{ number: number, at: number, from: string, to: string, id: string, text: string,
 *   state: string, note: string, own: Line | null }} Entry
 */

/**
 * All messages and bulletins by their first moment, and the operator's own lines.
 * @param {{ messages: Message[], bulletins: Message[] }} net
 * @param {Line[]} lines
 * @returns {Entry[]}
 */
export function entriesOf(net, lines = []) {
  const heard = [...net.messages, ...net.bulletins].map(it => ({ at: it.first, from: it.source,
    to: it.addressee, id: it.id, text: it.text, state: it.state,
    note: it.isBulletin || it.state === "unnumbered" ? "" : it.state, own: null }));
  const own = lines.map(it => ({ ...it, state: it.desk ? `of ${it.desk}` : "own",
    note: it.desk ? `of ${it.desk}` : "", own: it }));
  return [...heard, ...own].sort((a, b) => a.at - b.at).map((it, n) => ({ number: n + 1, ...it }));
}
