// The histogram, as a picture of lines and areas (SVG) that is made of numbers alone.

import { told } from "../core/format.js";
import { binsOf, weightsOf } from "../core/histogram.js";
import { roundStep } from "../core/scale.js";
import { table } from "../core/table.js";
import { shape } from "./elements.js";

/** A histogram of values with weights (null: each counts one), each bar in the colour of its greatest value. */
export function histogramOf(values, weights, colourOf, words) {
  const ends = binsOf(values), { sums, greatest } = weightsOf(values, weights, ends), most = Math.max(...sums, 1e-9);
  const [wide, high, left, low] = [380, 150, 46, 30];
  const span = `${told(ends[0])} to ${told(ends[ends.length - 1])}`;
  const text = `${words.of}: ${sums.length} bars from ${span}, the highest ${told(most)}`;
  const made = shape("svg", { viewBox: `0 0 ${wide} ${high}`, role: "img", "aria-label": text });
  const across = (value) => left + ((value - ends[0]) / (ends[ends.length - 1] - ends[0])) * (wide - left - 12);
  const up = (sum) => 8 + (1 - sum / most) * (high - 8 - low);
  sums.forEach((sum, bin) => {
    const box = { x: across(ends[bin]) + 0.5, y: up(sum), height: Math.max(0, up(0) - up(sum)) };
    const bar = shape("rect", { ...box, width: Math.max(0.5, across(ends[bin + 1]) - across(ends[bin]) - 1) });
    bar.setAttribute("fill", colourOf(greatest[bin]));
    bar.setAttribute("stroke", table.tokens["mark-edge"]);
    bar.setAttribute("stroke-width", "0.4");
    bar.append(shape("title", {}, `${told(ends[bin])} to ${told(ends[bin + 1])}: ${told(sum)} ${words.counted}`));
    made.append(bar);
  });
  addAxes(made, { ends, most, across, up, wide, high, left });
  return made;
}

export function addAxes(made, { ends, most, across, up, wide, high, left }) {
  made.append(shape("line", { x1: left, x2: wide - 8, y1: up(0), y2: up(0), stroke: table.tokens.soft }));
  const first = ends[0], last = ends[ends.length - 1], step = roundStep(last - first, 4);
  for (let at = Math.ceil(first / step) * step; at <= last + step * 1e-9; at += step) {
    const value = Number(at.toPrecision(12));
    const tick = { x1: across(value), x2: across(value), y1: up(0), y2: up(0) + 4, stroke: table.tokens.soft };
    made.append(shape("line", tick));
    made.append(shape("text", { x: across(value), y: high - 12, "text-anchor": "middle" }, told(value)));
  }
  for (const sum of [0, most]) {
    made.append(shape("text", { x: left - 5, y: up(sum) + 4, "text-anchor": "end" }, told(sum)));
  }
}
