// @ts-check
// What a server doesn't hand out.

/** The server is there, and refuses what it is asked for. */
export class Refused extends Error {}
/**
 * What a server answers, unless it refuses.
 * @param {Response} answer
 */
export function accepted(answer) {
  if (!answer.ok) throw new Refused(`the server answers ${answer.status}`);
  return answer;
}
