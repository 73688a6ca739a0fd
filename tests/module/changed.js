// Texts that are changed at random, by a seed: the same in each run.

/** Numbers from 0 on below `most`, and one of a list. */
export function picksBy(seed) {
  let state = seed >>> 0;
  const random = most => {
    state = (Math.imul(state, 1664525) + 1013904223) >>> 0;
    return Math.floor(state / 4294967296 * most);
  };
  return { random, pick: list => list[random(list.length)] };
}
/** Takes a few whole lines of a log, and makes up to three changes. */
export const changedBy = ({ random, pick }) => text => {
  let it = Buffer.from(text);
  const lines = it.toString("latin1").split("\n"), from = random(lines.length);
  if (random(2) && !it.subarray(0, 8).equals(Buffer.from("APRSBOOK"))) {
    const part = lines.slice(from, from + 1 + random(40)).join("\n");
    it = Buffer.from(part + (random(4) ? "\n" : ""), "latin1");
  }
  for (let n = random(4); n > 0 && it.length; n--) {
    const at = random(it.length), kind = random(3);
    if (kind === 0) it = Buffer.concat([it.subarray(0, at), it.subarray(at + 1 + random(9))]);
    else if (kind === 1) it[at] = pick(Buffer.from("0123456789abcdefAF \nZ:-cR\0\xff", "latin1"));
    else it = Buffer.concat([it.subarray(0, at), Buffer.from([random(256)]), it.subarray(at)]);
  }
  return new Uint8Array(it);
};
