// Areas that are reached along streets: from a stop travellers walk on along them for the time that is left.

import { metresBetween } from "../core/geometry.js";
import { onWorld } from "./projection.js";
import { ReachedAreas } from "./reached.js";
import { head, inflated, numbers } from "../page/data.js";

const DRAWERS = 1024; // buckets of the metres that are left
const AT_ONCE = 400; // pieces of streets per stroke
/** The streets of the page: nodes, and one-way connections by the node at which they begin. */
class Streets {
  constructor() {
    this.ends = this.at = new Int32Array(0); // of connections, and of places
    this.beside = new Float32Array(0); // metres from a place to its node
  }

  async read() {
    const names = ["nodes", "counts", "ends", "at", "beside"];
    const kinds = [Int32Array, Uint16Array, Int32Array, Int32Array, Float32Array];
    const [nodes, counts, ends, at, beside] = await Promise.all(
      names.map(async (name, number) => new kinds[number](await inflated(`street-${name}`))));
    for (let place = 2; place < nodes.length; place++) {
      nodes[place] += nodes[place - 2];
    }
    this.firsts = new Int32Array(counts.length + 1);
    this.begins = new Int32Array(ends.length);
    counts.forEach((count, node) => {
      this.firsts[node + 1] = this.firsts[node] + count;
      this.begins.fill(node, this.firsts[node], this.firsts[node + 1]);
    });
    Object.assign(this, { ends: ends.map((step, number) => step + this.begins[number]), at, beside });
    this.metres = Float64Array.from(this.ends, (end, number) => metresBetween(nodes, this.begins[number], end));
    this.isBothWays = this.bothWays();
    this.points = onWorld(nodes);
    this.middle = nodes.length ? nodes[0] / 1e6 : 0; // a latitude
  }

  /** How many metres are left at each node, 0 where one doesn't come, from places and what is left there; `most` is
   * the greatest. The nodes lie in drawers by what is left: those with the most are looked at first.
   */
  left(starts, most) {
    const made = new Float64Array(this.firsts.length - 1), wide = Math.max(1, most / DRAWERS);
    const drawers = Array.from({ length: Math.floor(most / wide) + 1 }, () => []);
    const put = (node, metres) => {
      if (metres > made[node]) {
        made[node] = metres;
        drawers[Math.floor(metres / wide)].push(node);
      }
    };
    starts.forEach(([place, metres]) => put(this.at[place], metres - this.beside[place]));
    for (let number = drawers.length - 1; number >= 0; number--) {
      for (const drawer = drawers[number]; drawer.length;) {
        const node = drawer.pop();
        for (let way = this.firsts[node]; way < this.firsts[node + 1]; way++) {
          put(this.ends[way], made[node] - this.metres[way]);
        }
      }
    }
    return made;
  }

  /** The pieces of streets along which what is left allows one to walk, as both ends on the map of zoom 0; without
   * those that lie in a narrower band, and those that are there from their other end.
   */
  pieces(left, inner) {
    const made = [];
    for (let way = 0; way < this.ends.length; way++) {
      const begin = this.begins[way], end = this.ends[way], metres = this.metres[way];
      const isInner = inner !== null && (inner[begin] >= metres || (this.isBothWays[way] && inner[end] >= metres));
      const isTwice = end < begin && this.isBothWays[way] && left[end] >= metres;
      if (left[begin] > 0 && metres > 0 && !isInner && !isTwice) {
        const part = Math.min(1, left[begin] / metres), [x, y] = [this.points[2 * begin], this.points[2 * begin + 1]];
        made.push(x, y, x + part * (this.points[2 * end] - x), y + part * (this.points[2 * end + 1] - y));
      }
    }
    return Float64Array.from(made);
  }

  /** Whether each connection has one that leads back. */
  bothWays() {
    const known = new Set(), count = this.firsts.length;
    this.ends.forEach((end, way) => known.add(this.begins[way] * count + end));
    return Uint8Array.from(this.ends, (end, way) => Number(known.has(end * count + this.begins[way])));
  }
}

/** Paints the areas that are reached along streets, below the places. */
export class ReachedStreets extends ReachedAreas {
  constructor(page) {
    super(page);
    this.streets = null; // until they are wanted
    this.known = { cells: null, left: new Map(), pieces: new Map() }; // by the end of a band
  }

  /** Reads the streets, once. */
  async read() {
    const made = new Streets();
    await made.read();
    this.streets = made;
  }

  paint(pen, view, cells, walk) {
    if (this.streets !== null) {
      super.paint(pen, view, cells, walk);
    }
  }

  paintBand(area, view, cells, walk, ends, number) {
    const circle = 2 * Math.PI * L.CRS.EPSG3857.R * Math.cos((this.streets.middle * Math.PI) / 180);
    area.lineWidth = (2 * head.streets.aside * 256 * view.scale) / circle;
    area.lineCap = "round";
    paintPieces(area, view, this.piecesOf(cells, walk, ends[number].end, ends[number + 1]?.end ?? null));
  }

  /** The pieces of streets that are reached within some minutes; those of the narrower band are in that. */
  piecesOf(cells, walk, end, narrower) {
    const left = this.leftOf(cells, walk, end), key = `${end} ${narrower}`;
    if (!this.known.pieces.has(key)) {
      const inner = narrower === null ? null : this.leftOf(cells, walk, narrower);
      this.known.pieces.set(key, this.streets.pieces(left, inner));
    }
    return this.known.pieces.get(key);
  }

  /** What is left at each node within some minutes of the place from which the cells are. */
  leftOf(cells, walk, end) {
    if (this.known.cells !== cells) {
      this.known = { cells, left: new Map(), pieces: new Map() };
    }
    const { left } = this.known;
    if (!left.has(end)) {
      const starts = [], speed = head.streets.speed;
      cells.forEach((minutes, column) => {
        if (minutes < end && this.streets.at[numbers.columns[column]] >= 0) {
          starts.push([numbers.columns[column], Math.min(60 * (end - minutes), walk) * speed]);
        }
      });
      left.set(end, this.streets.left(starts, walk * speed));
    }
    return left.get(end);
  }
}

/** Paints pieces of streets as broad lines, as far as they are in the view. */
function paintPieces(pen, view, pieces) {
  const { scale, x, y, width, height } = view, aside = pen.lineWidth;
  let count = 0;
  pen.beginPath();
  for (let place = 0; place < pieces.length; place += 4) {
    const one = pieces[place] * scale - x, up = pieces[place + 1] * scale - y;
    const other = pieces[place + 2] * scale - x, down = pieces[place + 3] * scale - y;
    const isLeft = Math.max(one, other) < -aside || Math.min(one, other) > width + aside;
    if (!isLeft && Math.max(up, down) >= -aside && Math.min(up, down) <= height + aside) {
      pen.moveTo(one, up);
      pen.lineTo(other, down);
      if (++count % AT_ONCE === 0) {
        pen.stroke();
        pen.beginPath();
      }
    }
  }
  pen.stroke();
}
