// The key: the marks of classes with their counts, and lines.

import { CHANGED_LINES } from "../core/constants.js";
import { told } from "../core/format.js";
import { table } from "../core/table.js";
import { paintMark, strokeAs } from "../map/marks.js";
import { head, numbers } from "../page/data.js";
import { element, fill, made } from "./elements.js";

const swatches = new Map(); // by what they look like
/** The mark of a class as the key shows it. */
export function swatch(mark) {
  const look = `${mark.colour} ${mark.shape} ${mark.size} ${mark.edge}`;
  if (!swatches.has(look)) {
    swatches.set(look, newSwatch(mark));
  }
  return swatches.get(look);
}

function newSwatch(mark) {
  const canvas = made("canvas", "", { width: 36, height: 36, "aria-hidden": "true", class: "swatch" });
  const pen = canvas.getContext("2d");
  pen.scale(2, 2);
  paintMark(pen, mark, 9, 9, mark.shape === "ring" ? 3 : Math.max(3, 5 * mark.size));
  return canvas;
}

/** A line as the key shows it. */
function lineSwatch(how) {
  const canvas = made("canvas", "", { width: 68, height: 28, "aria-hidden": "true", class: "line" });
  const pen = canvas.getContext("2d");
  pen.scale(2, 2);
  pen.moveTo(5, 7);
  pen.lineTo(29, 7);
  strokeAs(pen, how);
  if (how.crosses) {
    paintMark(pen, { colour: how.colour, shape: "thin" }, 17, 7, how.crosses / 1.5);
  }
  return canvas;
}

/** The classes with how many places each has; one without places is left out. */
export function showKey(title, marks, counts) {
  element("key-title").textContent = title;
  const lines = marks.map((mark, number) =>
    made("li", [swatch(mark), made("span", mark.label), made("span", told(counts[number]), { class: "count" })]));
  fill("key", ...lines.filter((_, number) => counts[number] > 0));
}

/** What the lines on the map are. */
export function showLinesKey(scenario) {
  const changes = CHANGED_LINES.filter((name) => scenario > 0 && numbers[`${name}-${scenario}`].length);
  const running = ["running"].filter((name) => numbers[name].length); // a page made of frames has no lines
  const lines = [...running, ...changes].map((name) =>
    made("li", [lineSwatch(table.lines[name]), made("span", table.lines[name].label)]));
  const sources = [head.lines.source, ...(head.ground === null ? [] : [head.ground.attribution])];
  fill("lines-key", ...lines, made("li", sources.join(" "), { class: "source" }));
}
