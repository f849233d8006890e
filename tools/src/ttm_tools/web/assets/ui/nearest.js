// The time to the nearest of something from each origin, in whole minutes: as a map, a histogram, and who loses most.

import { changeClasses, timeClasses } from "../core/classes.js";
import { LATER, NEVER } from "../core/constants.js";
import { changeTold, minutesTold, nearestTold, places, singular, told } from "../core/format.js";
import { lossOf } from "../core/sides.js";
import { table } from "../core/table.js";
import { countsOf, head, nameOf, numbers } from "../page/data.js";
import { MOST_LOSERS, changesTold } from "./answer.js";
import { element, fill, heads, line, made } from "./elements.js";
import { histogramOf } from "./histogram.js";
import { state } from "./state.js";
import { choose, classesOfOrigins, ranksOfOrigins, showOnMap } from "./view.js";

export function showNearest(words, now, before) {
  const sought = words.nearest === 1 ? singular(words.short) : words.short;
  element("heading").textContent = `Time to ${nearestTold(words.nearest)}: ${sought}`;
  element("told").textContent = before === null ? nearestSentence(words, now)
    : `${words.scenario} compared with ${head.scenarios[0]}: ${changesTold(now, before)}`;
  showPlaceNearest(state.place, words, now, before);
  element("losers-part").hidden = before === null;
  if (before !== null) {
    showLosersOfNearest(now, before);
  }
  const { marks, classOf } = before === null ? timeClasses() : changeClasses();
  const classes = Array.from(now, (minutes, origin) =>
    (before === null ? classOf(minutes) : classOf(before[origin], minutes)));
  showHistogramOfNearest(now, before, (value) => (before === null ? marks[classOf(value)].colour
    : value > 0 ? table.scales.loss.at(-1) : value < 0 ? table.scales.gain.at(-1) : table.marks.same.colour));
  const title = before === null ? "Time to the nearest" : "Change of the time to the nearest";
  const all = [...marks, table.marks["no-origin"]];
  showOnMap(title, classesOfOrigins(classes, marks.length), all, ranksOfOrigins(now));
}

/** The number of places from which this many are reached, and the minutes from half of these. */
function nearestSentence(words, now) {
  const reached = Array.from(now).filter((minutes) => minutes !== NEVER).sort((a, b) => a - b);
  const half = reached.length ? `, from half of these within ${minutesTold(reached[(reached.length - 1) >> 1])}` : "";
  return `${words.scenario}: reached from ${told(reached.length)} of ${places(now.length)}${half}.`;
}

function showPlaceNearest(place, words, now, before) {
  const origin = place < 0 ? -1 : numbers.originsAt[place];
  element("from-here").hidden = place < 0 || numbers.rowsAt[place] < 0;
  if (origin < 0) {
    fill("sums", ...(place < 0 ? [] : [made("caption", `${nameOf(place)} is no origin of the matrix`)]));
    return;
  }
  const after = now[origin], cells = before === null ? [minutesTold(after)]
    : [minutesTold(before[origin]), minutesTold(after), changeTold(before[origin], after)];
  const names = before === null ? ["travel time"] : ["before", "after", "change"];
  fill("sums", made("caption", `From ${nameOf(place)}`), heads("", ...names), line(words.short, cells));
}

/** The origins from which it takes longer, the greatest loss first. */
function showLosersOfNearest(now, before) {
  const loss = Array.from(now, (after, origin) => lossOf(before[origin], after));
  const order = Array.from(loss.keys()).filter((origin) => loss[origin] > 0).sort((a, b) => loss[b] - loss[a] || a - b);
  const some = order.slice(0, MOST_LOSERS);
  element("losers-title").textContent = some.length ? `The ${some.length} that lose most` : "Nobody loses";
  const lines = some.map((origin) => {
    const button = made("button", nameOf(numbers.origins[origin]), { type: "button" });
    button.addEventListener("click", () => choose(numbers.origins[origin]));
    const after = now[origin];
    return line([button], [minutesTold(before[origin]), minutesTold(after), changeTold(before[origin], after)]);
  });
  fill("losers", ...(some.length ? [heads("Place", "before", "after", "change")] : []), ...lines);
}

/** The histogram of the minutes, or of their change, over the origins that reach this many. */
function showHistogramOfNearest(now, before, colourOf) {
  const there = Array.from(now.keys()).filter((origin) =>
    now[origin] < LATER && (before === null || before[origin] < LATER));
  const values = there.map((origin) => now[origin] - (before === null ? 0 : before[origin]));
  const counts = state.weight < 0 ? null : countsOf(state.weight);
  const weights = counts === null ? null : there.map((origin) => counts[numbers.origins[origin]]);
  const counted = state.weight < 0 ? "places" : head.counts[state.weight];
  const of = `${before === null ? "Minutes to the nearest" : "Change in minutes"}: how many ${counted}`;
  element("histogram-title").textContent = of;
  fill("histogram", ...(values.length ? [histogramOf(values, weights, colourOf, { of, counted })] : []));
}

/** The text on a place under the pointer. */
export function nearestTip(name, now, before) {
  return `${name}: ${before === null ? "" : `${minutesTold(before)}, now `}${minutesTold(now)}`;
}
