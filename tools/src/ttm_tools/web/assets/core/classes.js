// The classes that `table` describes: labels, marks, and which of them a number is in. views/classes.py computes the
// same for pictures.

import { NEVER } from "./constants.js";
import { grade, roundBreaks } from "./scale.js";
import { sideOf } from "./sides.js";
import { classEnds, table } from "./table.js";

/** The colour at a part of the way from one colour to another. */
function blended(first, second, part) {
  const channels = [1, 3, 5].map((begin) => {
    const [low, high] = [first, second].map((colour) => parseInt(colour.slice(begin, begin + 2), 16));
    return Math.floor(low + (high - low) * part + 0.5).toString(16).padStart(2, "0");
  });
  return `#${channels.join("")}`;
}

/** So many colours at equal steps along a scale; a single one is its last. */
function coloursAlong(scale, count) {
  return Array.from({ length: count }, (_, place) => {
    const at = (count > 1 ? place / (count - 1) : 1) * (scale.length - 1);
    const low = Math.min(Math.floor(at), scale.length - 2);
    return blended(scale[low], scale[low + 1], at - low);
  });
}

/** The colours of so many classes from near to far, or from much to little. */
export function colours(count) {
  return count > 1 ? coloursAlong(table.scales.near, count) : [table.scales.near[0]];
}

const IN_LABELS = new Intl.NumberFormat("en", { maximumSignificantDigits: 10 });
/** The first and the last number of each class between breaks; whole numbers leave out the end of another. */
function spansBetween(breaks, afterFirst, beforeLast, areWhole = true) {
  return breaks.slice(1).map((high, place) => {
    const low = breaks[place], step = Number(areWhole && Number.isInteger(low) && Number.isInteger(high));
    return [low + step * afterFirst, high - step * beforeLast];
  });
}

/** The labels of the classes below, between and above breaks. */
function labelsOf(kind, breaks, between, unit = "") {
  const filled = (name, numbers) => table.labels[kind][name].replace(/\{(\w+)\}/g, (_, key) =>
    (key === "unit" ? unit : IN_LABELS.format(numbers[key])));
  const ranges = between.map(([first, last]) => filled(first === last ? "one" : "range", { first, last }));
  return [filled("first", { end: breaks[0] }), ...ranges, filled("last", { first: breaks.at(-1) })];
}

export function timeLabels(breaks) {
  return labelsOf("times", breaks, spansBetween(breaks, 1, 0));
}

export function countLabels(breaks, areWhole) {
  return labelsOf("counts", breaks, spansBetween(breaks, 0, 1, areWhole));
}

function ordinary(label, colour) {
  return { label, colour, ...table.marks.ordinary };
}

/** The marks of travel times, and which of them a cell is in. */
export function timeClasses() {
  const labels = timeLabels(classEnds), shades = colours(labels.length);
  const marks = [...labels.map((label, place) => ordinary(label, shades[place])), table.marks["not-reached"]];
  const classOf = (minutes) => (minutes === NEVER ? labels.length : grade(classEnds, minutes - 1));
  return { marks, classOf };
}

/** The class of each number of minutes that a cell may have. */
export function classesOfMinutes(classOf) {
  return Uint8Array.from({ length: NEVER + 1 }, (_, minutes) => classOf(minutes));
}

/** The marks of a difference: cut off, lost from much to little, hardly any, gained from little to much, new. */
export function differenceMarks(kind, breaks) {
  const words = table.labels[kind];
  const [same, ...ranges] = labelsOf("change", breaks, spansBetween(breaks, 0, 1), words.unit);
  const sided = (name, scale) => {
    const { sizes: [least, most], ...how } = table.marks[name], shades = coloursAlong(scale, ranges.length);
    const part = (place) => (ranges.length > 1 ? place / (ranges.length - 1) : 1);
    const size = (place) => Number((least + (most - least) * part(place)).toFixed(3));
    return ranges.map((range, place) =>
      ({ label: `${range} ${words[name]}`, colour: shades[place], ...how, size: size(place) }));
  };
  const [lost, gained] = [sided("lost", table.scales.loss), sided("gained", table.scales.gain)];
  const named = (name, label) => ({ label, ...table.marks[name] });
  return [named("cut", words.cut), ...lost.reverse(), named("same", same), ...gained, named("new", words.new)];
}

/** The marks of changed travel times, and which of them two cells are in. */
export function changeClasses() {
  const marks = [...differenceMarks("minutes", table.breaks.change), table.marks["in-neither"]];
  const middle = table.breaks.change.length + 1;
  const classOf = (before, after) => {
    if (before === NEVER || after === NEVER) {
      return before === after ? marks.length - 1 : after === NEVER ? 0 : marks.length - 2;
    }
    return middle + Math.sign(before - after) * grade(table.breaks.change, Math.abs(before - after));
  };
  return { marks, classOf };
}

/** The marks of access, and which of them a number is in; the least access has the lightest colour. A class of whole
    numbers ends at the last of them. */
export function accessClasses(least, most, whole) {
  const breaks = roundBreaks(least, most);
  const labels = countLabels(breaks, whole), shades = colours(labels.length).reverse();
  const marks = [...labels.map((label, place) => ordinary(label, shades[place])), table.marks["no-origin"]];
  return { marks, classOf: (number) => grade(breaks, number) };
}

/** The marks of changed access, and which of them an origin is in, by its access before and after. */
export function accessChangeClasses() {
  const marks = [...differenceMarks("percent", table.breaks.percent), table.marks["no-origin"]];
  const middle = table.breaks.percent.length + 1;
  const classOf = (before, after) => {
    const side = sideOf(before, after), percent = before === 0 ? 0 : (100 * (after - before)) / before;
    const grades = Math.sign(percent) * grade(table.breaks.percent, Math.abs(percent));
    return side.cut ? 0 : side.joined ? marks.length - 2 : middle + grades;
  };
  return { marks, classOf };
}
