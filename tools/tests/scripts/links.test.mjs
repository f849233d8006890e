// Changes in an address, by identifiers.

import assert from "node:assert/strict";
import { test } from "node:test";
import { namedActions, numberedActions } from "../../src/ttm_tools/web/assets/core/links.js";

const STOPS = ["A", "B", "C", "D"];
const ROUTES = [{ id: "R", ways: [{ stops: [0, 1, 2] }, { stops: [2, 1, 0] }] }, { id: "Q", ways: [{ stops: [2, 3] }] }];
const ACTIONS = [
  { do: "remove_route", route: 1 },
  { do: "cut", route: 0, way: 1, after: 1 },
  { do: "extend", route: 0, way: 0, stops: [3], speed: "20", dwell: 20 },
  { do: "add_line", name: "New", stops: [0, 3], both: true },
];
const NAMED = [
  { do: "remove_route", route: "Q" },
  { do: "cut", route: "R", way: ["C", "A", 3], after: "B" },
  { do: "extend", route: "R", way: ["A", "C", 3], stops: ["D"], speed: "20", dwell: 20 },
  { do: "add_line", name: "New", stops: ["A", "D"], both: true },
];

test("an address names routes, ways and stops by identifiers", () => {
  assert.deepEqual(namedActions(ACTIONS, ROUTES, STOPS), NAMED);
  assert.deepEqual(numberedActions(NAMED, ROUTES, STOPS), { actions: ACTIONS, lost: [] });
});

test("identifiers lead to the same routes and stops where these have other numbers", () => {
  const stops = ["D", "C", "B", "A"], routes = [{ id: "Q", ways: [{ stops: [1, 0] }] },
    { id: "R", ways: [{ stops: [1, 2, 3] }, { stops: [3, 2, 1] }] }];
  const { actions } = numberedActions(NAMED, routes, stops);
  assert.deepEqual(actions.map(({ route, way }) => [route, way]), [[0, undefined], [1, 0], [1, 1], [undefined, undefined]]);
  assert.deepEqual(actions[3].stops, [3, 0]);
});

test("an action with what the feed lacks is left out and named, and numbers stay", () => {
  const { actions, lost } = numberedActions([{ do: "remove_route", route: "X" }, NAMED[1], { do: "cut", route: "R",
    way: ["A", "D", 2], after: "B" }, { do: "remove_route", route: 1 }], ROUTES, STOPS);
  assert.deepEqual(actions, [ACTIONS[1], ACTIONS[0]]);
  assert.deepEqual(lost, ["X", "A,D,2"]);
});
