// @ts-check
// Numbers that are easily read.

/**
 * 1, 2 or 5 times a power of ten.
 * @param {number} atLeast
 */
export function roundUp(atLeast) {
  const ten = 10 ** Math.floor(Math.log10(atLeast));
  return [1, 2, 5].map(k => k * ten).find(size => size >= atLeast * 0.999) ?? 10 * ten;
}
