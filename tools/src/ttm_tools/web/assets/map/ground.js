// The ground below a map: what lies under areas, and the rails and main streets above them.

import { groundOf } from "../core/ground.js";
import { table } from "../core/table.js";

const CIRCLE = 40075017; // metres of the equator
const WORLD_SIDE = 256;
const CLOSE = 1.5; // pixels
const POINTS_AT_ONCE = 400; // points that are painted together; far more take longer each

/** Metres of a pixel in the middle of a view. */
export function metresOf(view) {
  const middle = (view.y + view.height / 2) / view.scale / WORLD_SIDE;
  return (CIRCLE / WORLD_SIDE / view.scale) / Math.cosh(Math.PI * (1 - 2 * middle));
}

/** Paints the ground of a page. */
export class GroundLayer {
  constructor(bytes) {
    const { shapes, names } = groundOf(bytes);
    this.shapes = shapes;
    this.names = names;
  }

  /** What areas are painted on. */
  paintUnder(pen, view) {
    table.ground.under.forEach((kind) => this.paintKind(pen, view, kind));
  }

  /** What shows above areas, which end at water and parks. */
  paintOver(pen, view) {
    table.ground.over.forEach((kind) => this.paintKind(pen, view, kind));
  }

  /** Water and parks once more, so that areas end there. */
  paintEdges(pen, view) {
    table.ground.edges.forEach((kind) => this.paintKind(pen, view, kind));
  }

  paintKind(pen, view, kind) {
    const how = table.ground.kinds[kind], shapes = this.shapes[kind], metres = metresOf(view);
    if (!shapes?.counts.length || metres > how.until) {
      return;
    }
    if (how.fill !== undefined) {
      pen.fillStyle = table.tokens[how.fill];
      this.trace(pen, view, shapes, true, () => pen.fill());
      return;
    }
    const factor = Math.min(1.8, Math.max(0.5, Math.sqrt(table.ground.metres / metres)));
    const widths = metres > how.thin ? [[how.hair / factor, how.edge, []]]
      : [[how.casing, how.edge, []], [how.width, how.colour, []], [how.core, how.inner, [6, 6]]];
    Object.assign(pen, { lineCap: how.casing ? "round" : "butt", lineJoin: how.casing ? "round" : "bevel" });
    for (const [width, colour, dash] of widths.filter(([width]) => width)) {
      pen.lineWidth = width * factor;
      pen.strokeStyle = table.tokens[colour];
      pen.setLineDash(dash);
      this.trace(pen, view, shapes, false, () => pen.stroke());
    }
    pen.setLineDash([]);
    Object.assign(pen, { lineCap: "butt", lineJoin: "miter" });
  }

  /** Has the shapes that are in the view painted, some at a time. Points closer than a pixel to the one before are left
   * out; holes are painted with the ring around them.
   */
  trace(pen, view, shapes, areRings, paint) {
    const { scale, x, y } = view, { counts, ends, boxes, turns } = shapes;
    const west = x / scale, north = y / scale, east = (x + view.width) / scale, south = (y + view.height) / scale;
    const least = CLOSE / scale;
    let from = 0, points = 0;
    pen.beginPath();
    for (let shape = 0; shape < counts.length; shape++) {
      const to = from + 2 * counts[shape], box = 4 * shape;
      if (boxes[box] < east && boxes[box + 2] > west && boxes[box + 1] < south && boxes[box + 3] > north) {
        let across = ends[from], down = ends[from + 1];
        pen.moveTo(across * scale - x, down * scale - y);
        for (let place = from + 2; place < to; place += 2) {
          if (place === to - 2 || Math.abs(ends[place] - across) + Math.abs(ends[place + 1] - down) > least) {
            [across, down] = [ends[place], ends[place + 1]];
            pen.lineTo(across * scale - x, down * scale - y);
            points++;
          }
        }
        if (areRings) {
          pen.closePath();
        }
      }
      if (points > POINTS_AT_ONCE && (!areRings || turns[shape + 1] > 0)) {
        paint();
        pen.beginPath();
        points = 0;
      }
      from = to;
    }
    paint();
  }
}
