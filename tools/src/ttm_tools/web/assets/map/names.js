// Names on the ground, each at the freest spot near its place; names without a spot are left out.

import { Boxes, freest } from "../core/labels.js";
import { table } from "../core/table.js";
import { metresOf } from "./ground.js";

const MOST_COVERED = 1; // places that a name may lie under
const HALO = 3; // pixels

/** Paints the names of the ground that are in a view, below the marks of `spots` (x and y of each in turn). */
export function paintNames(pen, view, names, spots) {
  const metres = metresOf(view), taken = new Boxes(), marks = new Boxes();
  for (let place = 0; place < spots.length; place += 2) {
    marks.add([spots[place] - 4, spots[place + 1] - 4, spots[place] + 4, spots[place + 1] + 4]);
  }
  const ranked = table.ground.names.flatMap((how) => (metres > how.until ? []
    : names.filter((name) => name.kind === how.kind).map((name) => ({ ...name, how }))));
  for (const { text, how, x, y } of ranked) {
    const at = /** @type {[number, number]} */ ([x * view.scale - view.x, y * view.scale - view.y]);
    if (at[0] > 0 && at[1] > 0 && at[0] < view.width && at[1] < view.height) {
      paintName(pen, text, how, at, taken, marks);
    }
  }
}

function paintName(pen, text, how, [x, y], taken, marks) {
  pen.font = `${how.style ?? "normal"} ${how.weight} ${how.size}px Inter, sans-serif`;
  const wide = pen.measureText(text).width + 2, high = how.size + 2;
  const found = freest(x, y, wide, high, how.dot ? 6 : 0, taken, marks, MOST_COVERED);
  if (found === null) {
    return;
  }
  taken.add(found);
  Object.assign(pen, { textAlign: "center", textBaseline: "middle", lineJoin: "round", lineWidth: HALO });
  pen.strokeStyle = table.tokens.land;
  pen.fillStyle = table.tokens[how.colour];
  const middle = [(found[0] + found[2]) / 2, (found[1] + found[3]) / 2];
  pen.strokeText(text, ...middle);
  pen.fillText(text, ...middle);
  if (how.dot) {
    paintDot(pen, x, y);
  }
  Object.assign(pen, { textAlign: "start", textBaseline: "alphabetic", lineJoin: "miter" });
}

function paintDot(pen, x, y) {
  pen.beginPath();
  pen.arc(x, y, 3, 0, 2 * Math.PI);
  pen.fillStyle = "#ffffff";
  pen.fill();
  pen.lineWidth = 1.4;
  pen.strokeStyle = table.tokens.place;
  pen.stroke();
}
