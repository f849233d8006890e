// The ground of a map without a document: its bytes, and where names find room.

import assert from "node:assert/strict";
import { test } from "node:test";
import { groundOf, numbersOf, worldOf } from "../../src/ttm_tools/web/assets/core/ground.js";
import { Boxes, freest } from "../../src/ttm_tools/web/assets/core/labels.js";

test("numbers have seven bits a byte, the lowest first", () => {
  assert.deepEqual(numbersOf(Uint8Array.of(0, 1, 127, 0x80, 1, 0xac, 2), 0, 7), [0, 1, 127, 128, 300]);
  assert.deepEqual(numbersOf(Uint8Array.of(9, 0x80, 1, 9), 1, 3), [128]);
});

test("the equator and Greenwich are the middle of the world", () => {
  assert.deepEqual(worldOf(0, 0), [128, 128]);
  assert.ok(Math.abs(worldOf(85.0511287798, -180)[1]) < 1e-9);
});

test("a ground has its shapes with a box around each, and its names", () => {
  const head = { unit: 2, kinds: [["rail", 2, 12]], names: [["city", "Lea", 0, 2]] };
  const text = new TextEncoder().encode(JSON.stringify(head));
  const steps = [2, 3, 0, 0, 4, 2, 1, 1, 0, 1, 3, 0]; // two shapes, of (0,0) (2,1), and of (1,0) (1,-1) (-1,-1)
  const bytes = new Uint8Array([text.length, 0, 0, 0, ...text, ...steps]);
  const { shapes, names } = groundOf(bytes.buffer);
  assert.deepEqual([...shapes.rail.counts], [2, 3]);
  assert.deepEqual([...shapes.rail.ends.slice(0, 4)], [...worldOf(0, 0), ...worldOf(1, 0.5)]);
  assert.deepEqual([...shapes.rail.ends.slice(8)], worldOf(-0.5, -0.5));
  assert.deepEqual([...shapes.rail.boxes.slice(4)], [worldOf(0, -0.5)[0], worldOf(0.5, 0)[1], 128, worldOf(-0.5, 0)[1]]);
  assert.deepEqual(names, [{ kind: "city", text: "Lea", x: worldOf(0, 1)[0], y: 128 }]);
});

test("a ring around an area turns to the left, and one around a hole to the right", () => {
  const text = new TextEncoder().encode(JSON.stringify({ unit: 10, kinds: [["park", 2, 20]], names: [] }));
  const square = [2, 2, 0, 2, 2, 0, 0, 1, 1, 0]; // north and east: (1,1), east, north, west, south
  const hole = [0, 0, 2, 0, 0, 2, 1, 1]; // (1,1), north, east, back
  const bytes = new Uint8Array([text.length, 0, 0, 0, ...text, 5, 4, ...square, ...hole]);
  const { turns } = groundOf(bytes.buffer).shapes.park;
  assert.deepEqual([...turns].map(Math.sign), [1, -1]);
});

test("a label takes its place, else the next free spot, else none", () => {
  const labels = new Boxes(), marks = new Boxes();
  assert.deepEqual(freest(100, 100, 40, 10, 0, labels, marks, 0), [80, 95, 120, 105]);
  labels.add([80, 95, 120, 105]);
  assert.deepEqual(freest(100, 100, 40, 10, 0, labels, marks, 0), [80, 109, 120, 119]);
  marks.add([80, 109, 120, 119]);
  assert.deepEqual(freest(100, 100, 40, 10, 0, labels, marks, 0), [80, 81, 120, 91]);
  labels.add([-500, -500, 500, 500]);
  assert.equal(freest(100, 100, 40, 10, 0, labels, marks, 0), null);
});

test("a label may lie over as many marks as is said, at the spot with the fewest", () => {
  const labels = new Boxes(), marks = new Boxes();
  for (const _ of [1, 2]) {
    marks.add([0, 0, 300, 300]);
  }
  assert.equal(freest(100, 100, 40, 10, 0, labels, marks, 1), null);
  assert.deepEqual(freest(100, 100, 40, 10, 0, labels, marks, 2), [80, 95, 120, 105]);
});
