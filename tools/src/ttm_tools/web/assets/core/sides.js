// Who loses and who gains.

import { NEVER } from "./constants.js";
import { places, told } from "./format.js";

/** A change of access below it is an error of floating point. */
const LEAST_CHANGE = 5e-7;

/** On which side an origin is by its access before and after: it loses some or gains some, however little; it is cut
    off where it had some and has none now, and newly reached where it had none. */
export function sideOf(before, after) {
  const lose = before - after >= LEAST_CHANGE, gain = after - before >= LEAST_CHANGE;
  return { lose, gain, cut: lose && after === 0, joined: gain && before === 0 };
}

/** How many origins are on which side. */
export function sides(before, now) {
  const found = { lose: 0, gain: 0, cut: 0, joined: 0 };
  now.forEach((after, origin) => {
    for (const [name, isIn] of Object.entries(sideOf(before[origin], after))) {
      found[name] += Number(isIn);
    }
  });
  return found;
}

/** The same as maps and tables say it. */
export function sidesTold(before, now) {
  const { lose, gain, cut, joined } = sides(before, now);
  return `${told(lose)} lose${lose === 1 ? "s" : ""}${cut ? ` (${told(cut)} of them cut off)` : ""}, `
    + `${told(gain)} gain${gain === 1 ? "s" : ""}${joined ? ` (${told(joined)} of them newly reached)` : ""}`;
}

const CUT_OFF = 1000, NEW = -1000; // minutes lost, in the order of losses

/** How many minutes are lost, for an order. */
export function lossOf(before, after) {
  return before === after ? 0 : after === NEVER ? CUT_OFF : before === NEVER ? NEW : after - before;
}

/** How many travel times are cut off, slower or faster by some minutes, or new; 254 and 255 are no minutes.
 * @param {Uint8Array} now
 * @param {Uint8Array} before
 * @param {number} least minutes
 */
export function changesOf(now, before, least) {
  const found = { cut: 0, slower: 0, faster: 0, joined: 0, count: now.length };
  for (let column = 0; column < now.length; column++) {
    const after = now[column], earlier = before[column];
    if (after !== earlier && (after === NEVER || earlier === NEVER)) {
      found.cut += Number(after === NEVER);
      found.joined += Number(earlier === NEVER);
    } else {
      found.slower += Number(after - earlier >= least);
      found.faster += Number(earlier - after >= least);
    }
  }
  return found;
}

/** The same as a sentence. */
export function changesSentence({ cut, slower, faster, joined, count }) {
  const parts = [[slower, "slower"], [cut, "cut off"], [faster, "faster"], [joined, "newly reached"]];
  const [first, ...rest] = parts.filter(([number]) => number > 0).map(([number, word]) => [told(number), word]);
  return first === undefined ? `None of ${places(count)} slower or faster`
    : [`${first[0]} of ${places(count)} ${first[1]}`, ...rest.map((it) => it.join(" "))].join(", ");
}
