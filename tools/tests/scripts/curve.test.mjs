// The curve of what is reached, and the sentences that it gives, by values computed by hand.

import assert from "node:assert/strict";
import { test } from "node:test";
import {
  curveTitle, headlineOf, LAST_MINUTE, minutesUntil, reachedBy,
} from "../../src/ttm_tools/web/assets/core/curve.js";
import { dateTold, shareTold } from "../../src/ttm_tools/web/assets/core/format.js";
import { changesOf, changesSentence } from "../../src/ttm_tools/web/assets/core/sides.js";

const CELLS = Uint8Array.from([0, 5, 15, 40, 255]), JOBS = [1, 20, 300, 4000, 9];
const jobs = (cells) => reachedBy(cells, (column) => JOBS[column]);

test("each minute has what is reached by then, and what is not reached is in none", () => {
  const sums = jobs(CELLS);
  assert.deepEqual([0, 4, 5, 15, 39, 40, LAST_MINUTE].map((minute) => sums[minute]), [1, 1, 21, 321, 321, 4321, 4321]);
  assert.equal(minutesUntil(sums, 22), 15);
  assert.equal(minutesUntil(sums, 4322), -1);
});

test("the title says what the curve says", () => {
  const before = jobs(CELLS), now = jobs(Uint8Array.from([0, 6, 32, 255, 255]));
  assert.equal(curveTitle(before, null, 30, "jobs"), "Half of 4,321 jobs take at most 40 min");
  assert.equal(curveTitle(now, before, 30, "jobs"), "As many jobs now take 32 min, not 15");
  assert.equal(curveTitle(now, before, 45, "jobs"), "As many jobs now take more than 120 min, not 45");
  assert.equal(curveTitle(before, before, 30, "jobs"), "As many jobs take as long as before");
  assert.equal(curveTitle(before, now.fill(0), 30, "jobs"), "321 jobs within 30 min, none before");
  const none = jobs(new Uint8Array(5).fill(255));
  assert.equal(curveTitle(none, null, 30, "jobs"), "No jobs within 120 min");
});

test("the one number has a sign where it is a change", () => {
  assert.deepEqual(headlineOf(321, null, 4321, "jobs"), { number: "321 jobs", change: 0, from: "of 4,321 (7\u202f%)" });
  assert.deepEqual(headlineOf(21, 321, 4321, "jobs"),
    { number: "\u2212300 jobs", change: -300, from: "321 → 21 (\u221293.5\u202f%)" });
  assert.deepEqual(headlineOf(322, 321, 4321, "jobs"),
    { number: "+1 job", change: 1, from: "321 → 322 (+0.3\u202f%)" });
  assert.equal(headlineOf(5, 0, 9, "jobs").from, "0 → 5");
});

test("a sentence names what became of travel times, and leaves out what nothing became of", () => {
  const counted = changesOf(Uint8Array.from([0, 6, 32, 255, 9]), CELLS, 2);
  assert.deepEqual(counted, { cut: 1, slower: 1, faster: 0, joined: 1, count: 5 });
  assert.equal(changesSentence(counted), "1 of 5 places slower, 1 cut off, 1 newly reached");
  assert.equal(changesSentence(changesOf(CELLS, CELLS, 2)), "None of 5 places slower or faster");
});

test("percentiles and dates have the words of people", () => {
  assert.equal(shareTold(50), "Usual journey (half of departures)");
  assert.equal(shareTold(75), "75 % of departures");
  assert.equal(dateTold("2026-05-04"), "Mon 4 May 2026");
});
