// Stops of one name on both sides of a street, which share a mark where their own would lie over one another.

import { told } from "./format.js";
import { metresBetween } from "./geometry.js";

const FARTHEST = 150; // metres between two stops that are opposite each other
const HEIGHT = 0.111195; // metres of a millionth of a degree of latitude
const OWN_MARKS = ["cross", "plus"]; // what is cut off or newly reached isn't left out for what is not

/** @typedef {{ classes: ArrayLike<number> | null, marks: { shape: string }[], ranks?: ArrayLike<number> | null }} Shown
 * the class of each place, the marks of classes, and by which number a place comes first: the lowest
 */

/** The pairs of some places that have a name in common and are each the nearest of that name to the other.
 * @param {string[]} names
 * @param {ArrayLike<number>} places latitude and longitude of each place in turn, in millionths of a degree
 * @param {number[]} some
 * @returns {[number, number][]}
 */
export function oppositePairs(names, places, some) {
  const named = /** @type {Map<string, number[]>} */ (new Map());
  for (const place of some) {
    const same = named.get(names[place]);
    same === undefined ? named.set(names[place], [place]) : same.push(place);
  }
  const found = /** @type {[number, number][]} */ ([]);
  for (const same of [...named.values()].filter((group) => group.length > 1)) {
    const nearest = nearestOf(places, same);
    nearest.forEach((other, place) => {
      if (place < other && nearest.get(other) === place) {
        found.push([place, other]);
      }
    });
  }
  return found;
}

/** The nearest other place to each of some, where one is near enough. */
function nearestOf(places, some) {
  const order = [...some].sort((a, b) => places[2 * a] - places[2 * b] || a - b);
  const nearest = new Map(), least = new Map(), reach = FARTHEST / HEIGHT;
  const offer = (place, other, metres) => {
    if (metres <= FARTHEST && metres < (least.get(place) ?? Infinity)) {
      nearest.set(place, other);
      least.set(place, metres);
    }
  };
  order.forEach((place, at) => {
    for (let next = at + 1; next < order.length && places[2 * order[next]] - places[2 * place] <= reach; next++) {
      const metres = metresBetween(places, place, order[next]);
      offer(place, order[next], metres);
      offer(order[next], place, metres);
    }
  });
  return nearest;
}

/** The pairs whose marks overlap, as the place that keeps the mark and the one that is left out: the nearer keeps it.
 * @param {[number, number][]} pairs
 * @param {ArrayLike<number>} points x and y of each place in turn
 * @param {number} wide of a mark, in the unit of these
 * @param {Shown} shown
 * @returns {[number, number][]}
 */
export function overlapping(pairs, points, wide, { classes, marks, ranks }) {
  const hasOwn = (place) => OWN_MARKS.includes(marks[classes[place]].shape);
  return pairs.filter(([one, other]) => {
    const east = points[2 * one] - points[2 * other], south = points[2 * one + 1] - points[2 * other + 1];
    return east * east + south * south < wide * wide
      && (classes === null || classes[one] === classes[other] || !(hasOwn(one) || hasOwn(other)));
  }).map(([one, other]) => (ranks && ranks[other] < ranks[one] ? [other, one] : [one, other]));
}

/** What the key says of pairs that share a mark. */
export function pairsTold(count) {
  return count === 0 ? "" : count === 1 ? "1 pair of opposite stops shares a mark"
    : `${told(count)} pairs of opposite stops share a mark each`;
}
