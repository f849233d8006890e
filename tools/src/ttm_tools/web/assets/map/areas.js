// Places that are areas: their rings on the map, which of them is at a point, and how they are painted.

import { isWithin } from "../core/geometry.js";
import { onWorld } from "./projection.js";
import { numbers } from "../page/data.js";

const EDGE = 0.6; // pixels round an area in its own colour, so that no gap shows between neighbours
/** The areas of the page, on the map of zoom 0. */
export class Areas {
  constructor() {
    this.rings = new Map(); // the rings of each place, x and y of their corners in turn
    this.boxes = new Map(); // and the least and the greatest of these: west, north, east, south
    const corners = numbers["area-corners"].slice(), rows = numbers["area-rings"];
    for (let place = 2; place < corners.length; place++) {
      corners[place] += corners[place - 2];
    }
    for (let row = 0, begin = 0; row < rows.length; row += 2) {
      const end = begin + 2 * rows[row + 1];
      this.add(rows[row], onWorld(corners.subarray(begin, end)));
      begin = end;
    }
  }

  add(place, ring) {
    const box = this.boxes.get(place) ?? [Infinity, Infinity, -Infinity, -Infinity];
    for (let corner = 0; corner < ring.length; corner += 2) {
      box[0] = Math.min(box[0], ring[corner]);
      box[1] = Math.min(box[1], ring[corner + 1]);
      box[2] = Math.max(box[2], ring[corner]);
      box[3] = Math.max(box[3], ring[corner + 1]);
    }
    this.boxes.set(place, box);
    this.rings.set(place, [...(this.rings.get(place) ?? []), ring]);
  }

  has(place) {
    return this.rings.has(place);
  }

  get any() {
    return this.rings.size > 0;
  }

  /** The area in which a point of the map lies; -1 where there is none. */
  at(x, y) {
    for (const [place, [west, north, east, south]] of this.boxes) {
      if (x >= west && x <= east && y >= north && y <= south && isWithin(this.rings.get(place), x, y)) {
        return place;
      }
    }
    return -1;
  }

  /** Whether some of an area is in a view. */
  isSeen(place, view) {
    const [west, north, east, south] = this.boxes.get(place);
    return east * view.scale > view.x && west * view.scale < view.x + view.width &&
      south * view.scale > view.y && north * view.scale < view.y + view.height;
  }

  /** How many pixels an area is wide or high, whichever is less. */
  sizeOf(place, view) {
    const [west, north, east, south] = this.boxes.get(place);
    return Math.min(east - west, south - north) * view.scale;
  }

  paint(pen, view, place, colour) {
    pen.beginPath();
    for (const ring of this.rings.get(place)) {
      pen.moveTo(ring[0] * view.scale - view.x, ring[1] * view.scale - view.y);
      for (let corner = 2; corner < ring.length; corner += 2) {
        pen.lineTo(ring[corner] * view.scale - view.x, ring[corner + 1] * view.scale - view.y);
      }
      pen.closePath();
    }
    pen.fillStyle = pen.strokeStyle = colour;
    pen.lineWidth = EDGE;
    pen.fill("evenodd");
    pen.stroke();
  }
}
