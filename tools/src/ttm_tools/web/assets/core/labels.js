// Where labels find room: boxes that are taken, and the freest of some spots.

/** @typedef {[number, number, number, number]} Box left, top, right and bottom in pixels */

const TILE = 64; // pixels of a side, by which boxes are found
const RINGS = [0, 14, 26, 40]; // pixels around a place at which a label is tried
const WAYS = [[0, 0], [0, 1], [0, -1], [1, 0], [-1, 0], [0.7, 0.7], [-0.7, 0.7], [0.7, -0.7], [-0.7, -0.7]];

/** Boxes, of which those that meet another one are found. */
export class Boxes {
  constructor() {
    this.tiles = /** @type {Map<string, Box[]>} */ (new Map());
  }

  /** The tiles that a box meets. */
  *over([left, top, right, bottom]) {
    for (let across = Math.floor(left / TILE); across <= Math.floor(right / TILE); across++) {
      for (let down = Math.floor(top / TILE); down <= Math.floor(bottom / TILE); down++) {
        yield `${across} ${down}`;
      }
    }
  }

  /** @param {Box} box */
  add(box) {
    for (const key of this.over(box)) {
      this.tiles.set(key, [...(this.tiles.get(key) ?? []), box]);
    }
  }

  /** How many of the boxes meet one. @param {Box} box */
  meeting(box) {
    const found = new Set();
    for (const key of this.over(box)) {
      for (const other of this.tiles.get(key) ?? []) {
        if (other[0] < box[2] && other[2] > box[0] && other[1] < box[3] && other[3] > box[1]) {
          found.add(other);
        }
      }
    }
    return found.size;
  }
}

/** The box of a label of a size near a place that meets no other label and the fewest marks; null if each spot meets
 * a label, or more than `most` marks. A label stands `aside` pixels off its place.
 * @returns {Box | null}
 */
export function freest(x, y, wide, high, aside, labels, marks, most) {
  let best = null, least = most + 1;
  for (const ring of RINGS.filter((ring) => ring >= aside)) {
    for (const [east, south] of ring === 0 ? [WAYS[0]] : WAYS.slice(1)) {
      const middle = [x + east * (ring + wide / 2 - 6), y + south * ring];
      const box = /** @type {Box} */ ([middle[0] - wide / 2, middle[1] - high / 2, middle[0] + wide / 2,
        middle[1] + high / 2]);
      const met = labels.meeting(box) ? Infinity : marks.meeting(box);
      if (met < least) {
        [best, least] = [box, met];
      }
      if (least === 0) {
        return best;
      }
    }
  }
  return best;
}
