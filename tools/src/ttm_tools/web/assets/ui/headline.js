// The answer of travel times: one number, what it is of, and the curve.

import { curveTitle, headlineOf, reachedBy } from "../core/curve.js";
import { countsOf, head, nameOf, numbers } from "../page/data.js";
import { curveOf } from "./chart.js";
import { element, fill, NARROW, optionsOf } from "./elements.js";
import { state } from "./state.js";

const LEAST_WIDE = 240; // pixels of the curve

/** The names of what can be counted: places, and each thing that lies at places of the page. */
export function namesCounted() {
  return ["places", ...head.reached.map((number) => head.counts[number])];
}

/** Fills the list of what is counted; jobs or the like come first where the page has some. */
export function fillCounted() {
  fill("curve-of", ...optionsOf(namesCounted()));
  state.count = Math.min(state.count, head.reached.length);
}

/** The sums of what is chosen by minutes. */
function sumsOf(cells) {
  const counts = state.count === 0 ? null : countsOf(head.reached[state.count - 1]);
  return reachedBy(cells, (column) => (counts === null ? 1 : counts[numbers.columns[column]]));
}

function totalOf() {
  const counts = state.count === 0 ? null : countsOf(head.reached[state.count - 1]);
  return Array.from(numbers.columns).reduce((sum, place) => sum + (counts === null ? 1 : counts[place]), 0);
}

/** Writes the number, or takes it away where there is none. */
export function tellHeadline(number, change, of, from) {
  const shown = element("headline");
  shown.textContent = number;
  shown.className = change < 0 ? "lost" : change > 0 ? "gained" : "";
  element("headline-of").textContent = of;
  element("headline-from").textContent = from;
}

/** Shows how much is reached within the slider's minutes, and by all others. */
export function showHeadline(now, before) {
  const name = namesCounted()[state.count], { minutes } = state;
  const after = sumsOf(now), earlier = before === null ? null : sumsOf(before);
  const found = headlineOf(after[minutes], earlier === null ? null : earlier[minutes], totalOf(), name);
  const where = head.names[state.place] ?? nameOf(state.place);
  tellHeadline(found.number, found.change, `within ${minutes} min of ${where}`, found.from);
  element("curve-part").hidden = false;
  element("curve-title").textContent = curveTitle(after, earlier, minutes, name);
  element("curve-of-what").textContent = `${name[0].toUpperCase()}${name.slice(1)} reached over time`;
  const lines = [...(earlier === null ? [] : [{ name: head.scenarios[0], sums: earlier }]),
    { name: head.scenarios[state.scenario], sums: after }];
  const size = { wide: Math.max(LEAST_WIDE, element("curve").clientWidth), high: NARROW.matches ? 138 : 190 };
  fill("curve", curveOf(lines, name, minutes, size));
}

/** What was said aloud last, so that nothing is said twice. */
let said = "";

/** Has a screen reader say a short text. */
export function say(text) {
  if (text !== said) {
    said = text;
    element("live").textContent = text;
  }
}
