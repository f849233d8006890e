// Numbers and times as people read them.

import { LATER, NEVER } from "./constants.js";

const [WHOLE, DECIMAL] = [0, 1].map((digits) => new Intl.NumberFormat("en", { maximumFractionDigits: digits }));
/** A number for people, with one decimal at most. */
export function told(number) {
  return (Math.abs(number) < 100 ? DECIMAL : WHOLE).format(number);
}

/** A number of what a name counts, for people: 1 job, 20 jobs. */
export function counted(number, name) {
  return `${told(number)} ${number === 1 ? singular(name) : name}`;
}

/** The name of one of what a name counts; other names than plain plurals stay as they are. */
export function singular(name) {
  const found = [["ies", "y"], ["sses", "ss"], ["ches", "ch"], ["shes", "sh"], ["xes", "x"]].find(([end]) =>
    name.endsWith(end));
  if (found !== undefined) {
    return name.slice(0, -found[0].length) + found[1];
  }
  return /[^sui]s$/.test(name) ? name.slice(0, -1) : name;
}

/** A change for people, with its sign. */
export function toldChange(number) {
  return `${number > 0 ? "+" : ""}${told(number)}`;
}

/** What a change costs on the day: +78 departures, +38 vehicle hours. */
export function costTold({ departures, hours }) {
  const sign = (number) => (number > 0 ? "+" : number < 0 ? "\u2212" : "±");
  const text = (number, name) => `${sign(number)}${counted(Math.abs(number), name)}`;
  return `${text(departures, "departures")}, ${text(hours, "vehicle hours")} a day`;
}

export function places(count) {
  return `${told(count)} ${count === 1 ? "place" : "places"}`;
}

export function minutesTold(minutes) {
  return minutes === NEVER ? "not reached" : minutes === LATER ? "more than 253 min" : `${minutes} min`;
}

/** What became of a travel time, by minutes where both are known. */
export function changeTold(before, after) {
  if (before === after) {
    return before >= LATER ? "" : "0";
  }
  if (before === NEVER || after === NEVER) {
    return after === NEVER ? "cut off" : "new";
  }
  return before === LATER ? "faster" : after === LATER ? "slower" : toldChange(after - before);
}

export function percentTold(before, after) {
  return before === 0 ? "" : `${toldChange((100 * (after - before)) / before)} %`;
}

export function secondsTold(seconds) {
  if (seconds === null) {
    return "the limit of the run";
  }
  return seconds % 60 ? `${told(seconds)} seconds` : `${told(seconds / 60)} minutes`;
}

/** How many of the nearest a measure counts, for people. */
export function nearestTold(count) {
  return count === 1 ? "the nearest" : `the ${told(count)} nearest`;
}

/** Within what a measure counts, or how many of the nearest. */
export function limitTold(measure) {
  return measure.nearest === null ? secondsTold(measure.seconds) : nearestTold(measure.nearest);
}

export function clockOf(minutes) {
  return `${String(Math.floor(minutes / 60)).padStart(2, "0")}:${String(minutes % 60).padStart(2, "0")}`;
}

export function minutesOfClock(clock) {
  return 60 * Number(clock.slice(0, 2)) + Number(clock.slice(3, 5));
}

export function minutesAndSeconds(seconds) {
  return `${Math.floor(seconds / 60)}:${String(seconds % 60).padStart(2, "0")} min`;
}

/** The name of a percentile of departures; the usual ones have words. */
export function shareTold(share) {
  const words = { 10: "Best tenth of departures", 50: "Usual journey (half of departures)",
    90: "Most days (90 % of departures)", 100: "Every departure" };
  return share === null ? "One travel time" : words[share] ?? `${share} % of departures`;
}

/** A date as people write it: Mon 4 May 2026. */
export function dateTold(date) {
  const day = /** @type {const} */ ({ weekday: "short", day: "numeric", month: "short", year: "numeric" });
  const shown = new Intl.DateTimeFormat("en-GB", { ...day, timeZone: "UTC" });
  return shown.format(new Date(`${date}T00:00Z`)).replace(",", "");
}
