// The curve of what is reached by minutes: before dashed, now solid, and the gap between them filled.

import { LAST_MINUTE } from "../core/curve.js";
import { told } from "../core/format.js";
import { roundStep } from "../core/scale.js";
import { table } from "../core/table.js";
import { shape } from "./elements.js";

const LEFT = 42, RIGHT = 12, TOP = 12, LOW = 24;
const AXIS = 90; // minutes, where the slider stands no further
const THOUSAND = 1000, LETTER = 7; // and the pixels of a letter of a label

/** A number on an axis: thousands as k. */
function short(number) {
  return number >= 10 * THOUSAND ? `${told(number / THOUSAND)}k` : told(number);
}

/** Lines by minutes, and where the slider stands; the last is the one that is chosen. */
export function curveOf(lines, what, minutes, { wide, high }) {
  const end = minutes > AXIS ? LAST_MINUTE : AXIS, most = Math.max(1e-9, ...lines.map(({ sums }) => sums[end]));
  const step = roundStep(most, 4), top = Math.max(step, Math.ceil(most / step - 1e-9) * step);
  const across = (minute) => LEFT + (minute / end) * (wide - LEFT - RIGHT);
  const up = (sum) => TOP + (1 - sum / top) * (high - TOP - LOW);
  const text = lines.map(({ name, sums }) => `${name}: ${told(sums[minutes])} within ${minutes} minutes`).join("; ");
  const drawn = shape("svg", { viewBox: `0 0 ${wide} ${high}`, role: "img", "aria-label": `${what}, ${text}` });
  addGrid(drawn, { step, top, end, minutes, across, up, wide, high });
  if (lines.length > 1) {
    addGap(drawn, lines, end, across, up);
  }
  lines.forEach(({ sums }, place) => addLine(drawn, sums, place === lines.length - 1, end, across, up));
  drawn.append(shape("line", { x1: across(minutes), x2: across(minutes), y1: TOP, y2: up(0), class: "at" }));
  lines.forEach(({ sums }, place) => {
    const last = place === lines.length - 1;
    drawn.append(shape("circle", { cx: across(minutes), cy: up(sums[minutes]), r: 4, class: last ? "dot" : "ring" }));
  });
  addLabels(drawn, lines, minutes, { across, up, wide, high });
  return drawn;
}

function addGrid(drawn, { step, top, end, minutes, across, up, wide, high }) {
  for (let sum = 0; sum <= top * (1 + 1e-9); sum += step) {
    drawn.append(shape("line", { x1: LEFT, x2: wide - RIGHT, y1: up(sum), y2: up(sum), class: sum ? "grid" : "axis" }));
    drawn.append(shape("text", { x: LEFT - 6, y: up(sum) + 4, "text-anchor": "end" }, short(sum)));
  }
  const ticks = end === AXIS ? 15 : 30, own = across(minutes);
  for (let minute = 0; minute <= end; minute += ticks) {
    if (Math.abs(across(minute) - own) > 34) {
      const anchor = minute === end ? "end" : "middle";
      const x = minute === end ? wide - 4 : across(minute);
      drawn.append(shape("text", { x, y: high - 6, "text-anchor": anchor }, minute));
    }
  }
  const x = Math.min(wide - 24, own);
  drawn.append(shape("text", { x, y: high - 6, "text-anchor": "middle", class: "strong" }, `${minutes} min`));
}

/** The points of a line, as SVG writes them. */
function pointsOf(sums, end, across, up) {
  return Array.from(sums.slice(0, end + 1), (sum, minute) => `${across(minute).toFixed(1)},${up(sum).toFixed(1)}`);
}

/** What is lost or gained between two lines, in the light colours of losses and gains. */
function addGap(drawn, lines, end, across, up) {
  const [before, now] = lines.map(({ sums }) => sums);
  for (const [scale, low, high] of [["loss", now, before], ["gain", before, now]]) {
    const upper = Array.from({ length: end + 1 }, (_, minute) => Math.max(low[minute], high[minute]));
    const points = pointsOf(upper, end, across, up);
    const back = pointsOf(low, end, across, up);
    if (upper.some((sum, minute) => sum > low[minute])) {
      drawn.append(shape("polygon", { points: [...points, ...back.reverse()].join(" "), fill: table.scales[scale][0],
        "fill-opacity": 0.55 }));
    }
  }
}

function addLine(drawn, sums, isLast, end, across, up) {
  const points = pointsOf(sums, end, across, up);
  drawn.append(shape("polyline", { points: points.join(" "), class: isLast ? "now" : "before" }));
}

/** Labels next to the lines: before to the left and above, now to the right and below, where there is room. */
function addLabels(drawn, lines, minutes, { across, up, wide, high }) {
  const x = across(minutes), rooms = { start: wide - RIGHT - x - 8, end: x - LEFT - 8 };
  lines.forEach(({ name, sums }, place) => {
    const last = place === lines.length - 1, isAlone = lines.length === 1, number = told(sums[minutes]);
    const fits = (text, side) => LETTER * text.length <= rooms[side];
    const wished = last && !isAlone ? ["start", "end"] : ["end", "start"];
    const side = wished.find((it) => fits(number, it)) ?? wished[0], label = `${name} ${number}`;
    const low = last && !isAlone && sums[minutes] <= lines[0].sums[minutes];
    const y = Math.min(high - LOW - 6, Math.max(TOP + 10, up(sums[minutes]) + (low ? 16 : -8)));
    const how = { x: side === "start" ? x + 8 : x - 8, y, "text-anchor": side, class: last ? "strong halo" : "halo" };
    drawn.append(shape("text", how, fits(label, side) ? label : number));
  });
}
