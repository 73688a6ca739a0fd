// @ts-check
// Texts off the air, and counts in words.

const strictUtf8 = new TextDecoder("utf-8", { fatal: true, ignoreBOM: true });
// controls, ends of lines, halves of letters, and what turns the direction of a text
const unreadable = /^[\p{Cc}\p{Cs}\p{Zl}\p{Zp}\p{Bidi_Control}]$/u;

/**
 * The first letter of a text as aprsbook shows it.
 * @param {string} shown
 */
export const letterOf = shown => /^\\(?:x..|\\)|^./s.exec(shown)?.[0] ?? "";
/**
 * The octets of a text as aprsbook shows it, with `\x..` for each that is no plain letter.
 * @param {string} shown
 */
function octetsOf(shown) {
  const octets = [];
  for (let at = 0; at < shown.length; at++) {
    if (shown[at] === "\\" && shown[at + 1] === "\\") {
      octets.push(92);
      at++;
    } else if (shown[at] === "\\") {
      octets.push(parseInt(shown.slice(at + 2, at + 4), 16));
      at += 3;
    } else octets.push(shown.charCodeAt(at));
  }
  return Uint8Array.from(octets);
}

/** @param {Uint8Array} octets */
const hexOf = octets => Array.from(octets, it => "\\x" + it.toString(16).padStart(2, "0")).join("");

/** How many octets a letter of UTF-8 has that begins so; those that begin none have one. */
const sizeOf = (/** @type {number} */ octet) =>
  octet < 0xc2 ? 1 : octet < 0xe0 ? 2 : octet < 0xf0 ? 3 : 4;
/**
 * The letter of UTF-8 at a place of octets; nothing where there is none.
 * @param {Uint8Array} octets
 * @param {number} at
 */
function letterAt(octets, at) {
  try {
    return strictUtf8.decode(octets.subarray(at, at + sizeOf(octets[at])));
  } catch {
    return "";
  }
}
/**
 * A text off the air, of the form in which aprsbook shows it: in UTF-8. What is none, and what
 * can't be read, stays as it is shown. The tool reads the same.
 * @param {string} shown
 */
export function said(shown) {
  if (!shown.includes("\\")) return shown;
  const octets = octetsOf(shown);
  let text = "";
  for (let at = 0; at < octets.length;) {
    const letter = letterAt(octets, at), size = letter ? sizeOf(octets[at]) : 1;
    text += letter ? readable(letter) : hexOf(octets.subarray(at, at + size));
    at += size;
  }
  return text;
}
const readable = (/** @type {string} */ letter) =>
  unreadable.test(letter) ? hexOf(new TextEncoder().encode(letter)) : letter;
/**
 * A text that didn't come off the air, such as the name of a file, so that it can't turn others.
 * @param {string} text
 */
export const printable = text => Array.from(text, readable).join("");
/**
 * The order of texts by the numbers of their letters, as the tool has it.
 * @param {string} a
 * @param {string} b
 */
export function byLetters(a, b) {
  let at = 0;
  while (at < a.length && a[at] === b[at]) at++;
  // the second half of a letter has no place before what begins one
  const of = (/** @type {string} */ text) => text.codePointAt(at) ?? -1;
  return of(a) - of(b);
}

/** What is said where the browser doesn't keep something. */
export const keepsNo = (/** @type {string} */ what) =>
  `This browser keeps no ${what}: save the page of the event, which has them.`;
/** What a fault says that was thrown. */
export const messageOf = (/** @type {unknown} */ fault) =>
  fault instanceof Error ? fault.message : String(fault);

/**
 * The first of many texts, and how many more there are.
 * @param {string[]} texts
 */
export const firstOf = (texts, most = 5) => texts.length > most
  ? [...texts.slice(0, most), `and ${(texts.length - most).toLocaleString("en")} more`] : texts;
/** So many names of receivers stand where there is no room for all of them. */
const NAMES = 8;
/**
 * Names of receivers, the first of many.
 * @param {string[]} names
 */
export const namesText = names => firstOf(names, NAMES).join(", ");
/** @param {number} n @param {string} word of one of them */
export const count = (n, word) => `${n.toLocaleString("en")} ${word}${n === 1 ? "" : "s"}`;
