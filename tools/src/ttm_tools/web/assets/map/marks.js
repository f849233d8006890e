// Marks, cells and lines, as a pen paints them.

import { table } from "../core/table.js";

export const LEAST_SQUARE = 2; // pixels
const LEAST_RING = 1.4; // pixels, the radius below which a hollow mark is a dot
const EDGED = 2.5, EDGE_WIDE = 0.75; // pixels: the radius above which a mark has an edge, and the edge's width
const SQUARE = Math.sqrt(Math.PI) / 2; // of a circle's radius: half the side of a square of the same area
/** Strokes the path of a pen as a kind of line: its casing or edge first. */
export function strokeAs(pen, how) {
  Object.assign(pen, { lineCap: "round", lineJoin: "round" });
  for (const [width, colour, dash] of [[how.casing, how.edge ?? "#ffffff", []], [how.width, how.colour, how.dash]]) {
    if (width) {
      pen.setLineDash(dash);
      pen.lineWidth = width;
      pen.strokeStyle = colour;
      pen.stroke();
    }
  }
  pen.setLineDash([]);
  Object.assign(pen, { lineCap: "butt", lineJoin: "miter" });
}

/** A place's mark, or a square of the same area where it would be tiny. */
export function paintSmall(pen, mark, x, y, radius) {
  const own = radius * mark.size, half = own * SQUARE, isRing = mark.shape === "ring";
  if (own <= (isRing ? LEAST_RING : EDGED) && (isRing || mark.shape === "circle")) {
    pen.fillStyle = isRing ? mark.edge : mark.colour;
    pen.fillRect(x - half, y - half, 2 * half, 2 * half);
  } else {
    paintMark(pen, mark, x, y, own);
  }
}

/** A place's cell with a mark of its class in it, or one of these. */
export function paintCell(pen, mark, x, y, sides, part = "all") {
  const [wide, high] = sides;
  if (mark.shape !== "ring" && part !== "marks") { // a cell beyond the slider has no colour, so that lines show
    pen.fillStyle = colourOfCell(mark);
    pen.fillRect(x - wide / 2, y - high / 2, wide, high);
  }
  if (part !== "fills") {
    paintWithin(pen, mark, x, y, Math.min(wide, high));
  }
}

export function colourOfCell(mark) {
  return mark.shape === "thin" || mark.shape === "dot" ? table.tokens.edge : mark.colour;
}

/** The mark of a class within a cell of some pixels, where that has room. */
export function paintWithin(pen, mark, x, y, size) {
  if (size >= 9 && !["circle", "dot", "ring"].includes(mark.shape)) {
    const isDark = mark.shape === "cross" || mark.shape === "plus";
    const colour = isDark ? "#ffffff" : mark.shape === "thin" ? mark.colour : table.tokens["mark-edge"];
    paintMark(pen, { ...mark, colour, inside: true }, x, y, size * 0.22);
  }
}

/** A mark of a class, on which a colour isn't all that tells it from others. */
export function paintMark(pen, mark, x, y, radius) {
  pen.beginPath();
  pen.fillStyle = mark.colour;
  pen.lineWidth = Math.min(EDGE_WIDE, radius / 5);
  pen.strokeStyle = mark.edge ?? table.tokens["mark-edge"];
  if (mark.shape === "down" || mark.shape === "up") {
    const tip = mark.shape === "up" ? -radius : radius;
    pen.moveTo(x, y + 1.1 * tip);
    pen.lineTo(x - 1.1 * radius, y - 0.8 * tip);
    pen.lineTo(x + 1.1 * radius, y - 0.8 * tip);
    pen.closePath();
  } else if (mark.shape === "cross" || mark.shape === "plus" || mark.shape === "thin") {
    paintBars(pen, mark, x, y, radius);
    return;
  } else {
    pen.arc(x, y, mark.shape === "dot" ? Math.min(radius, 1.5) : radius, 0, 2 * Math.PI);
  }
  pen.fill();
  if (!mark.inside && (radius > EDGED || mark.shape === "ring")) {
    pen.lineWidth = mark.shape === "ring" ? 1 : pen.lineWidth;
    pen.stroke();
  }
}

/** Two bars, upright or not, with an edge of another colour. */
function paintBars(pen, mark, x, y, radius) {
  const [across, up] = mark.shape === "plus" ? [radius, 0] : [radius * 0.75, radius * 0.75];
  pen.moveTo(x - across, y - up);
  pen.lineTo(x + across, y + up);
  pen.moveTo(x - up, y + across);
  pen.lineTo(x + up, y - across);
  if (mark.shape !== "thin" && !mark.inside) {
    pen.lineWidth = radius * 0.95;
    pen.strokeStyle = mark.edge;
    pen.stroke();
  }
  pen.lineWidth = mark.shape === "thin" ? Math.max(0.8, radius * 0.28) : radius * 0.55;
  pen.strokeStyle = mark.colour;
  pen.stroke();
}

/** The star at the place from which one starts. */
export function paintStar(pen, x, y) {
  pen.beginPath();
  for (let point = 0; point < 10; point++) {
    const far = point % 2 ? 5 : 12, angle = (point * Math.PI) / 5 - Math.PI / 2;
    pen.lineTo(x + far * Math.cos(angle), y + far * Math.sin(angle));
  }
  pen.closePath();
  pen.fillStyle = table.tokens.ink;
  pen.strokeStyle = "#ffffff";
  pen.lineWidth = 2;
  pen.stroke();
  pen.fill();
}

/** The ring at the place where a journey ends. */
export function paintDestination(pen, x, y) {
  const { ink } = table.tokens, white = "#ffffff";
  for (const [radius, colour] of [[10, white], [8.5, ink], [5.5, white], [2.6, ink]]) {
    pen.beginPath();
    pen.arc(x, y, radius, 0, 2 * Math.PI);
    pen.fillStyle = colour;
    pen.fill();
  }
}
