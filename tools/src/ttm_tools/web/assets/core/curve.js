// How much is reached within each minute, and what to say of it.

import { counted, percentTold, told } from "./format.js";

export const LAST_MINUTE = 120; // of the curve

/** How much is reached within each minute up to the last.
 * @param {Uint8Array} cells minutes to each column
 * @param {(column: number) => number} weight what lies there
 * @returns {Float64Array}
 */
export function reachedBy(cells, weight) {
  const sums = new Float64Array(LAST_MINUTE + 1);
  for (let column = 0; column < cells.length; column++) {
    if (cells[column] <= LAST_MINUTE) {
      sums[cells[column]] += weight(column);
    }
  }
  for (let minute = 1; minute <= LAST_MINUTE; minute++) {
    sums[minute] += sums[minute - 1];
  }
  return sums;
}

/** The first minute within which so much is reached; -1 where it never is.
 * @param {Float64Array} sums
 * @param {number} amount
 */
export function minutesUntil(sums, amount) {
  return sums.findIndex((sum) => sum >= amount);
}

/** The answer that a curve gives, as a title.
 * @param {Float64Array} now
 * @param {Float64Array | null} before
 * @param {number} minutes where the slider stands
 * @param {string} name of what is counted
 */
export function curveTitle(now, before, minutes, name) {
  const all = now[LAST_MINUTE];
  if (before === null) {
    const half = minutesUntil(now, all / 2);
    return all > 0 ? `Half of ${counted(all, name)} take at most ${half} min` : `No ${name} within ${LAST_MINUTE} min`;
  }
  const least = minutesUntil(now, before[minutes]);
  if (before[minutes] === 0) {
    return `${told(now[minutes])} ${name} within ${minutes} min, none before`;
  }
  if (least < 0) {
    return `As many ${name} now take more than ${LAST_MINUTE} min, not ${minutes}`;
  }
  const earlier = minutesUntil(before, before[minutes]);
  return least === earlier ? `As many ${name} take as long as before`
    : `As many ${name} now take ${least} min, not ${earlier}`;
}

/** The one number of an answer, and what stands below it.
 * @param {number} now
 * @param {number | null} before
 * @param {number} all
 * @param {string} name
 */
export function headlineOf(now, before, all, name) {
  if (before === null) {
    const part = all > 0 ? ` (${told(Math.round((100 * now) / all))}\u202f%)` : "";
    return { number: counted(now, name), change: 0, from: `of ${told(all)}${part}` };
  }
  const change = now - before, sign = change < 0 ? "\u2212" : change > 0 ? "+" : "\u00b1";
  const percent = before === 0 ? "" : ` (${percentTold(before, now).replace("-", "\u2212").replace(" ", "\u202f")})`;
  const number = `${sign}${counted(Math.abs(change), name)}`;
  return { number, change, from: `${told(before)} → ${told(now)}${percent}` };
}
