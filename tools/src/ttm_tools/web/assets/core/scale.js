// Round numbers, and which class a number is in.

/** How many of some ascending numbers a number has come up to. */
export function grade(breaks, number) {
  let found = 0;
  while (found < breaks.length && number >= breaks[found]) {
    found++;
  }
  return found;
}

/** A round number that steps over a span in about this many steps: 1, 2 or 5 times a power of ten. */
export function roundStep(span, count) {
  const least = Math.max(span / count, 1e-9);
  const power = 10 ** Math.floor(Math.log10(least));
  return [1, 2, 5, 10].map((step) => step * power).find((step) => step >= least * (1 - 1e-12));
}

/** Round numbers that part the numbers from the least to the most. */
export function roundBreaks(least, most) {
  const step = Math.max(roundStep(most - least, 8), Number.isInteger(least) && Number.isInteger(most) ? 1 : 0);
  const breaks = [];
  for (let at = (Math.floor(least / step) + 1) * step; at <= most; at += step) {
    breaks.push(Number(at.toPrecision(12)));
  }
  return breaks.length ? breaks : [Math.floor(most) + 1];
}
