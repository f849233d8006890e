// The logic of the scripts that needs no browser, by values computed by hand.

import assert from "node:assert/strict";
import { readFileSync } from "node:fs";
import { test } from "node:test";
import * as classes from "../../src/ttm_tools/web/assets/core/classes.js";
import { NEVER } from "../../src/ttm_tools/web/assets/core/constants.js";
import { flowed, scaleOf } from "../../src/ttm_tools/web/assets/core/flow.js";
import * as format from "../../src/ttm_tools/web/assets/core/format.js";
import * as geometry from "../../src/ttm_tools/web/assets/core/geometry.js";
import { binsOf, weightsOf } from "../../src/ttm_tools/web/assets/core/histogram.js";
import { grade, roundBreaks, roundStep } from "../../src/ttm_tools/web/assets/core/scale.js";
import { plain } from "../../src/ttm_tools/web/assets/core/search.js";
import * as sides from "../../src/ttm_tools/web/assets/core/sides.js";
import { classEnds, setClassEnds, useTable } from "../../src/ttm_tools/web/assets/core/table.js";

const FILE = new URL("../../src/ttm_tools/views/assets/classes.json", import.meta.url);
useTable(JSON.parse(readFileSync(FILE, "utf8")));

test("a class of times ends at its break, and what is not reached has one of its own", () => {
  const { marks, classOf } = classes.timeClasses();
  assert.deepEqual([0, 10, 11, 90, 91, 254].map(classOf), [0, 0, 1, 5, 6, 6]);
  assert.equal(marks[classOf(NEVER)].label, "not reached");
  assert.equal(marks[classOf(30)].label, "21 to 30 min");
});

test("other ends of classes hold until they are set again", () => {
  setClassEnds([5, 10]);
  assert.deepEqual(classes.timeClasses().marks.map((mark) => mark.label),
    ["up to 5 min", "6 to 10 min", "more than 10 min", "not reached"]);
  setClassEnds([10, 20, 30, 45, 60, 90]);
  assert.equal(classEnds.length, 6);
});

test("a change of one minute is none, since minutes are rounded", () => {
  const { marks, classOf } = classes.changeClasses(), label = (...minutes) => marks[classOf(...minutes)].label;
  assert.equal(label(20, 21), "less than 2 min either way");
  assert.equal(label(20, 22), "2 to 4 min slower");
  assert.equal(label(20, 5), "15 min or more faster");
  assert.equal(label(20, NEVER), "cut off");
  assert.equal(label(NEVER, 20), "newly reached");
  assert.equal(label(NEVER, NEVER), "not reached in either");
});

test("changed access is in percent of what was there", () => {
  const { marks, classOf } = classes.accessChangeClasses(), label = (...numbers) => marks[classOf(...numbers)].label;
  assert.equal(label(100, 91), "2 to 9 % lost");
  assert.equal(label(100, 99), "less than 2 % either way");
  assert.equal(label(100, 0), "cut off: all of it lost");
  assert.equal(label(0, 3), "newly reached: none before");
});

test("the most access is the darkest", () => {
  const { marks } = classes.accessClasses(0, 40, true);
  assert.deepEqual([marks[0].colour, marks.at(-2).colour], ["#d3eb85", "#2b235d"]);
});

test("steps and breaks are round", () => {
  assert.equal(roundStep(80, 8), 10);
  assert.equal(roundStep(81, 8), 20);
  assert.deepEqual(roundBreaks(0, 40), [5, 10, 15, 20, 25, 30, 35, 40]);
  assert.equal(grade([2, 5, 15], 5), 2);
});

test("numbers and times read as people write them", () => {
  assert.equal(format.told(1234.56), "1,235");
  assert.equal(format.counted(1, "primary schools"), "1 primary school");
  assert.equal(format.singular("churches"), "church");
  assert.equal(format.toldChange(3), "+3");
  assert.equal(format.changeTold(20, NEVER), "cut off");
  assert.equal(format.percentTold(50, 25), "-50 %");
  assert.equal(format.clockOf(450), "07:30");
  assert.equal(format.minutesOfClock("08:29"), 509);
  assert.equal(format.minutesAndSeconds(125), "2:05 min");
});

test("somebody loses however little, and noise is no loss", () => {
  assert.deepEqual(sides.sideOf(10, 0), { lose: true, gain: false, cut: true, joined: false });
  assert.equal(sides.sideOf(10, 10 + 1e-9).gain, false);
  const told = "1 loses (1 of them cut off), 2 gain (1 of them newly reached)";
  assert.equal(sides.sidesTold([10, 10, 0], [0, 12, 4]), told);
  assert.equal(sides.lossOf(20, 32), 12);
});

test("bins have round ends, with 0 as one of them", () => {
  const ends = binsOf([-3, 9]);
  assert.ok(ends.includes(0) && ends[0] <= -3 && ends.at(-1) >= 9);
  assert.deepEqual(weightsOf([0, 0.5, 1], null, [0, 1, 2]).sums, [2, 1]);
});

test("a point is within a ring, and not in its hole", () => {
  const ring = [0, 0, 10, 0, 10, 10, 0, 10], hole = [4, 4, 6, 4, 6, 6, 4, 6];
  assert.ok(geometry.isWithin([ring, hole], 1, 1));
  assert.ok(!geometry.isWithin([ring, hole], 5, 5));
  assert.equal(geometry.farFrom(3, 4, [0, 0, 10, 0], 0, 1), 16);
});

test("names are searched without capitals and accents", () => {
  assert.equal(plain("Béta ÖST"), "beta ost");
});

test("items are in rows that are no wider than they may be", () => {
  const found = flowed([{ wide: 40 }, { wide: 40 }, { wide: 90 }, { wide: 200 }], 100, 10);
  assert.deepEqual(found.placed.map(({ x, row }) => [x, row]), [[0, 0], [50, 0], [0, 1], [0, 2]]);
  assert.equal(found.rows, 3);
  assert.deepEqual(flowed([], 100, 10), { placed: [], rows: 0 });
});

test("a scale has the greatest round length that fits", () => {
  assert.deepEqual(scaleOf(11, 120), { length: 1000, label: "1 km" });
  assert.deepEqual(scaleOf(5, 120), { length: 500, label: "500 m" });
  assert.deepEqual(scaleOf(20, 120), { length: 2000, label: "2 km" });
});
