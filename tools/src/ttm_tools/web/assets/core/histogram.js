// The bins of a histogram.

import { roundStep } from "./scale.js";

const BINS = 24;
/** The ends of bins of a round width over some numbers; one of them is 0 where they lie on both sides of it. */
export function binsOf(values) {
  let [least, most] = [Infinity, -Infinity];
  for (const value of values) {
    [least, most] = [Math.min(least, value), Math.max(most, value)];
  }
  if (!(most > least)) {
    return [least - 0.5, least + 0.5];
  }
  const step = roundStep(most - least, BINS), first = Math.floor(least / step);
  const count = Math.floor(most / step) - first + 1;
  return Array.from({ length: count + 1 }, (_, number) => Number(((first + number) * step).toPrecision(12)));
}

/** How much weight lies in each bin, the upper end belonging to the next one, and the greatest value in it. */
export function weightsOf(values, weights, ends) {
  const sums = new Array(ends.length - 1).fill(0), greatest = ends.slice(0, -1), step = ends[1] - ends[0];
  values.forEach((value, number) => {
    const bin = Math.min(sums.length - 1, Math.max(0, Math.floor((value - ends[0]) / step + 1e-9)));
    sums[bin] += weights === null ? 1 : weights[number];
    greatest[bin] = Math.max(greatest[bin], value);
  });
  return { sums, greatest };
}
