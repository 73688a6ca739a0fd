// @ts-check
// Bytes of a text in base85 (RFC 1924, as Python's b85encode has it), which is shorter than base64.

const LETTERS = "0123456789ABCDEFGHIJKLMNOPQRSTUVWXYZabcdefghijklmnopqrstuvwxyz" +
  "!#$%&()*+-;<=>?@^_`{|}~";
const VALUES = new Uint8Array(128);
[...LETTERS].forEach((it, n) => { VALUES[it.charCodeAt(0)] = n; });

/**
 * Five letters are four bytes; of the last group as many bytes as letters but one.
 * @param {string} text
 */
export function fromBase85(text) {
  const size = text.length - Math.ceil(text.length / 5), bytes = new Uint8Array(size + 3);
  const view = new DataView(bytes.buffer);
  for (let at = 0, out = 0; at < text.length; at += 5, out += 4) {
    let n = 0;
    for (let k = at; k < at + 5; k++)
      n = n * 85 + (k < text.length ? VALUES[text.charCodeAt(k)] : 84);
    if (out + 4 <= bytes.length) view.setUint32(out, n);
    else for (let k = 0; out + k < size; k++) bytes[out + k] = n / 2 ** (24 - 8 * k) & 255;
  }
  return bytes.subarray(0, size);
}
