// Opposite stops that share a mark, by distances computed by hand.

import assert from "node:assert/strict";
import { test } from "node:test";
import { oppositePairs, overlapping, pairsTold } from "../../src/ttm_tools/web/assets/core/opposite.js";

const METRE = 1 / 0.111195; // millionths of a degree at the equator
/** The latitudes and longitudes of places so many metres north and east of a point on the equator. */
const placesAt = (...metres) => metres.flat().map((it) => Math.round(it * METRE));

test("two stops of a name form a pair up to 150 metres apart, and stops of other names none", () => {
  const names = ["Mill", "Mill", "Church", "Mill", "Church"];
  const places = placesAt([0, 0], [149, 0], [1, 0], [5000, 0], [1, 151]);
  assert.deepEqual(oppositePairs(names, places, [0, 1, 2, 3, 4]), [[0, 1]]);
  assert.deepEqual(oppositePairs(names, places, [0, 2, 3, 4]), []);
});

test("of more than two stops of a name each is in one pair at most, with its nearest", () => {
  const places = placesAt([0, 0], [0, 20], [0, 30], [90, 0], [90, 25]);
  assert.deepEqual(oppositePairs(Array(5).fill("Mill"), places, [0, 1, 2, 3, 4]), [[1, 2], [3, 4]]);
});

test("a pair shares a mark where it is closer than a mark is wide, and the nearer in time keeps it", () => {
  const marks = [{ shape: "circle" }, { shape: "circle" }], points = [0, 0, 3, 4]; // 5 apart
  const shown = (ranks) => ({ classes: [0, 1], marks, ranks });
  assert.deepEqual(overlapping([[0, 1]], points, 5, shown([7, 3])), []);
  assert.deepEqual(overlapping([[0, 1]], points, 5.1, shown([7, 3])), [[1, 0]]);
  assert.deepEqual(overlapping([[0, 1]], points, 5.1, shown([3, 7])), [[0, 1]]);
  assert.deepEqual(overlapping([[0, 1]], points, 5.1, { classes: null, marks }), [[0, 1]]);
});

test("what is cut off or newly reached is left out for a stop of its own class alone", () => {
  const marks = ["circle", "cross", "plus"].map((shape) => ({ shape }));
  const shared = (...classes) => overlapping([[0, 1]], [0, 0, 1, 0], 2, { classes, marks, ranks: [1, 2] }).length;
  assert.deepEqual([shared(0, 1), shared(2, 0), shared(1, 2), shared(1, 1), shared(0, 0)], [0, 0, 0, 1, 1]);
});

test("the key says how many pairs share a mark", () => {
  assert.deepEqual([0, 1, 1200].map(pairsTold), ["", "1 pair of opposite stops shares a mark",
    "1,200 pairs of opposite stops share a mark each"]);
});
