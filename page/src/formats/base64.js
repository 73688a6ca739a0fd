// @ts-check
// Bytes that stand in the page as a text.

/**
 * The bytes of a text in base64.
 * @param {string} text
 */
export function fromBase64(text) {
  const letters = atob(text), bytes = new Uint8Array(letters.length);
  for (let k = 0; k < bytes.length; k++) bytes[k] = letters.charCodeAt(k);
  return bytes;
}
