// Sentences, sums and tables of the places within reach.

import { NEVER } from "../core/constants.js";
import { changeTold, counted, minutesTold, percentTold, places, told, toldChange } from "../core/format.js";
import { changesOf, changesSentence, lossOf, sides, sidesTold } from "../core/sides.js";
import { table } from "../core/table.js";
import { countsOf, head, nameOf, numbers } from "../page/data.js";
import { element, fill, heads, line, made } from "./elements.js";
import { say, tellHeadline } from "./headline.js";
import { histogramOf } from "./histogram.js";

const MOST_LINES = 500; // of the table of all travel times
export const MOST_LOSERS = 10;
/** The sums of what is reached within some minutes: of places, and of each thing that lies at places of the page. */
function sumsWithin(cells, minutes) {
  return [null, ...head.reached.map(countsOf)].map((counts) => sumWithin(cells, minutes, counts));
}

function sumWithin(cells, minutes, counts) {
  let sum = 0;
  for (let column = 0; column < cells.length; column++) {
    if (cells[column] <= minutes) {
      sum += counts === null ? 1 : counts[numbers.columns[column]];
    }
  }
  return sum;
}

/** What is reached within the slider's minutes, now and, in a difference, before. */
export function showSums(minutes, now, before) {
  const names = ["places", ...head.reached.map((number) => head.counts[number])];
  const title = `Within ${minutes} minutes`, after = sumsWithin(now, minutes);
  if (before === null) {
    const all = sumsWithin(new Uint8Array(head.columns), minutes);
    const lines = names.map((name, number) => line(name, [told(after[number]), told(all[number])]));
    fill("sums", heads(title, "reached", "of"), ...lines);
  } else {
    const first = sumsWithin(before, minutes);
    const cells = names.map((_, at) => [told(first[at]), told(after[at]), toldChange(after[at] - first[at])]);
    const lines = names.map((name, at) => line(name, cells[at]));
    fill("sums", heads(title, "before", "after", "change"), ...lines);
  }
}

/** What became of travel times, as a sentence. */
export function changesTold(now, before) {
  return changesSentence(changesOf(now, before, table.breaks.change[0]));
}

export function showTimesTold(place, scenario, now, before) {
  const title = before === null ? `Travel times from ${nameOf(place)}`
    : `${head.scenarios[scenario]}, compared with ${head.scenarios[0]}`;
  const text = before === null ? `${told(sumWithin(now, NEVER - 1, null))} of ${places(now.length)} reached`
    : changesTold(now, before);
  element("heading").textContent = title;
  element("told").textContent = text;
  say(`${title}: ${text}`);
}

/** All travel times as a table, the shortest first; in a difference the greatest loss first. */
export function showAll(now, before) {
  const order = Array.from(now.keys()), loss = order.map((at) => (before === null ? 0 : lossOf(before[at], now[at])));
  order.sort((a, b) => loss[b] - loss[a] || now[a] - now[b] || a - b);
  const cells = (at) => (before === null ? [minutesTold(now[at])]
    : [minutesTold(before[at]), minutesTold(now[at]), changeTold(before[at], now[at])]);
  const lines = order.slice(0, MOST_LINES).map((at) => line(nameOf(numbers.columns[at]), cells(at)));
  const more = order.length - lines.length;
  fill("all", before === null ? heads("Place", "travel time") : heads("Place", "before", "after", "change"), ...lines,
    ...(more > 0 ? [line(`${places(more)} more: find them by name, or on the map`, [])] : []));
}

export function showAccessTold(words, now, before) {
  const title = `Access: ${words.of} within ${words.within}`, of = `${words.short} within ${words.within}`;
  element("heading").textContent = title;
  if (before === null) {
    const sorted = Float64Array.from(now).sort(), half = sorted[Math.floor((sorted.length - 1) / 2)];
    tellHeadline(counted(half, words.short), 0, `within ${words.within}, from half of ${places(now.length)}`, "");
    element("told").textContent = `${words.scenario}: half of ${places(now.length)} reach at least `
      + `${counted(half, words.short)}; the most is ${told(sorted[sorted.length - 1])}.`;
  } else {
    const lose = sides(before, now).lose;
    tellHeadline(`${places(lose)} ${lose === 1 ? "loses" : "lose"}`, -lose, of, "");
    element("told").textContent = `${words.scenario} compared with ${head.scenarios[0]}: of ${places(now.length)} `
      + `${sidesTold(before, now)}.`;
  }
  say(`${title}: ${element("told").textContent}`);
}

/** Access before and after, its change, and that in percent. */
function accessChange(before, after) {
  return [told(before), told(after), toldChange(after - before), percentTold(before, after)];
}

/** The chosen place's access, where it is an origin. */
export function showPlaceAccess(place, words, now, before) {
  const origin = place < 0 ? -1 : numbers.originsAt[place];
  element("from-here").hidden = place < 0 || numbers.rowsAt[place] < 0;
  if (place < 0) {
    fill("sums");
  } else if (origin < 0) {
    fill("sums", made("caption", `${nameOf(place)} is no origin of the matrix`));
  } else {
    const [names, cells] = before === null ? [["reached"], [told(now[origin])]]
      : [["before", "after", "change", ""], accessChange(before[origin], now[origin])];
    fill("sums", made("caption", `From ${nameOf(place)}`), heads("", ...names), line(words.short, cells));
  }
}

/** The origins that lose most, each of which can be chosen. */
export function showLosers(now, before, choose) {
  const order = Array.from(now.keys()).filter((origin) => now[origin] < before[origin]);
  order.sort((a, b) => (now[a] - before[a]) - (now[b] - before[b]) || a - b);
  const some = order.slice(0, MOST_LOSERS), title = element("losers-title");
  title.textContent = some.length ? `The ${some.length} that lose most` : "Nobody loses";
  const people = head.people.map((name) => countsOf(head.counts.indexOf(name)));
  const lines = some.map((origin) => {
    const place = numbers.origins[origin], button = made("button", nameOf(place), { type: "button" });
    button.addEventListener("click", () => choose(place));
    const who = people.map((counts) => told(counts[place]));
    return line([button], [...accessChange(before[origin], now[origin]), ...who]);
  });
  fill("losers", ...(some.length ? [heads("Place", "before", "after", "change", "", ...head.people)] : []), ...lines);
}

/** The histogram of access, or of its change, over places or people. */
export function showHistogram(words, values, weight, colourOf) {
  const weights = weight < 0 ? null : Array.from(numbers.origins, (place) => countsOf(weight)[place]);
  const counted = weight < 0 ? "places" : head.counts[weight];
  const of = `${words.difference ? "Change of access" : "Access"}: how many ${counted}`;
  element("histogram-title").textContent = of;
  fill("histogram", histogramOf(values, weights, colourOf, { of, counted }));
}
