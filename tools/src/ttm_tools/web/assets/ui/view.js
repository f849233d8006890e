// Shows the state, and changes it as the controls say.

import { accessChangeClasses, accessClasses, changeClasses, classesOfMinutes, timeClasses } from "../core/classes.js";
import { NEVER } from "../core/constants.js";
import { limitTold, minutesTold, secondsTold, told, toldChange } from "../core/format.js";
import { minutesFrom } from "../core/source.js";
import { table } from "../core/table.js";
import { accessOf, additions, head, nameOf, numbers } from "../page/data.js";
import {
  showAccessTold, showAll, showHistogram, showLosers, showPlaceAccess, showSums, showTimesTold,
} from "./answer.js";
import { element, fill, optionsOf } from "./elements.js";
import { showHeadline, tellHeadline } from "./headline.js";
import { showKey, showLinesKey } from "./key.js";
import { nearestTip, showNearest } from "./nearest.js";
import { keepAddress, state } from "./state.js";
import { showViews } from "./views.js";

export let page = null; // the map
export let current = { now: null, before: null }; // travel times from the chosen place, as they are shown
export let turn = 0; // of showing; what a later turn has overtaken isn't shown

export function set(change) {
  Object.assign(state, change);
  if (state.scenario === 0) {
    state.difference = false;
  }
  return show();
}

/** Shows the state: the map, the panel, and the address. */
export async function show() {
  const own = ++turn, { place, scenario, share } = state;
  showControls();
  additions.forEach((addition) => addition.controls());
  const before = state.difference && place >= 0 ? await minutesFrom(place, 0, share) : null;
  const now = place >= 0 && own === turn ? await minutesFrom(place, scenario, share) : null;
  if (own !== turn) {
    return;
  }
  current = { now, before };
  if (state.view === "access") {
    showAccess();
  } else if (now === null) {
    showNoTimes();
  } else {
    showTimes(now, before);
  }
  additions.forEach((addition) => addition.show(current));
  page.renewTip();
  element("meaning").textContent = head.meanings[share]
    + (state.difference ? " A difference is one of such whole minutes: it may be up to a minute off." : "");
  keepAddress();
  document.documentElement.dataset.shown = String(own);
}

/** Shows the name of what was chosen in the search, as long as nobody types there. */
export function nameSearched(name) {
  element("search").placeholder = name || "Search or click the map";
  element("search").classList.toggle("chosen", name !== "");
}

function showControls() {
  for (const radio of /** @type {any} */ (document.getElementsByName("view"))) {
    radio.checked = radio.value === state.view;
  }
  document.body.dataset.view = state.view;
  element("clear").hidden = state.place < 0;
  nameSearched(state.place < 0 ? "" : head.names[state.place] ?? head.point ?? "");
  element("minutes-told").textContent = state.minutes;
  const limits = head.measures.filter((measure) => measure.of === state.of);
  fill("within", ...optionsOf(limits.map(limitTold)));
  state.within = Math.min(state.within, limits.length - 1);
  element("counted").value = state.of;
  element("curve-of").value = state.count;
  for (const name of ["scenario", "share", "minutes", "within", "weight"]) {
    element(name).value = state[name];
  }
  showViews();
}

/** What is shown before a place is chosen, or where the page hasn't its travel times. */
function showNoTimes() {
  const chosen = state.place >= 0;
  element("from-here").hidden = true;
  element("heading").textContent = chosen ? `Travel times from ${nameOf(state.place)}` : "Choose a place";
  element("told").textContent = !chosen
    ? "Click on the map, or search by name: the map is coloured by the travel times from there."
    : numbers.originsAt[state.place] < 0 ? "This place is not an origin of the matrix: choose another one."
      : "The page has the access of this place, but not its travel times: choose another one.";
  tellHeadline("", 0, "", "");
  element("curve-part").hidden = true;
  fill("sums");
  fill("all");
  const classes = Uint8Array.from(numbers.rowsAt, (row) => Number(row < 0));
  const having = [[table.marks.unknown, "with"], [table.marks["no-origin"], "without"]];
  showOnMap("Places", classes, having.map(([mark, word]) => ({ ...mark, label: `${word} travel times` })));
}

/** The marks of travel times or of their change, which of them each place has, and its minutes; a place beyond the
    slider's minutes has a mark of its own. */
export function classesOfTimes(now, before) {
  const { marks, classOf } = before === null ? timeClasses() : changeClasses(), count = marks.length;
  const beyond = { ...table.marks.beyond, label: table.marks.beyond.label.replace("{end}", state.minutes) };
  const classes = new Uint8Array(head.names.length).fill(count + 1);
  const ranks = new Uint16Array(head.names.length).fill(NEVER + 1);
  const classAt = before === null ? classesOfMinutes(classOf) : null;
  for (let column = 0; column < now.length; column++) {
    const place = numbers.columns[column], minutes = now[column], earlier = before === null ? minutes : before[column];
    const isBeyond = Math.min(minutes, earlier) > state.minutes && Math.max(minutes, earlier) !== NEVER;
    ranks[place] = minutes;
    classes[place] = isBeyond ? count : before === null ? classAt[minutes] : classOf(earlier, minutes);
  }
  return { classes, marks: [...marks, beyond, table.marks["no-destination"]], ranks };
}

function showTimes(now, before) {
  const { classes, marks, ranks } = classesOfTimes(now, before);
  element("from-here").hidden = true;
  showTimesTold(state.place, state.scenario, now, before);
  showHeadline(now, before);
  showSums(state.minutes, now, before);
  if (element("all-part").open) {
    showAll(now, before);
  }
  showOnMap(before === null ? "Travel time, waiting included" : "Change of travel time", classes, marks, ranks);
}

/** Shows classes on the map and in the key. Of opposite stops that share a mark, the one of the lower rank has it. */
export function showOnMap(title, classes, marks, ranks = null) {
  const counts = new Array(marks.length).fill(0);
  for (let place = 0; place < classes.length; place++) {
    counts[classes[place]]++;
  }
  showKey(title, marks, counts);
  showLinesKey(state.scenario);
  page.show({ classes, marks, ranks, place: state.place, scenario: state.scenario });
}

/** The number of the measure of access that is chosen, and its words. */
function chosenMeasure() {
  const measure = head.measures.filter((it) => it.of === state.of)[state.within];
  const words = {
    of: measure.of,
    short: measure.short,
    within: secondsTold(measure.seconds),
    nearest: measure.nearest, // how many of them; null where they are counted within a limit
    scenario: head.scenarios[state.scenario],
    difference: state.difference,
  };
  return { number: head.measures.indexOf(measure), words };
}

function showAccess() {
  const { number, words } = chosenMeasure();
  tellHeadline("", 0, "", "");
  const now = accessOf(state.scenario, state.share, number);
  const before = state.difference ? accessOf(0, state.share, number) : null;
  if (words.nearest !== null) {
    showNearest(words, now, before);
    return;
  }
  showAccessTold(words, now, before);
  showPlaceAccess(state.place, words, now, before);
  element("losers-part").hidden = before === null;
  if (before === null) {
    const { marks, classOf } = accessClasses(...spanOf(number));
    showHistogram(words, Array.from(now), state.weight, (value) => marks[classOf(value)].colour);
    showOnMap("Access", classesOfOrigins(Array.from(now, classOf), marks.length - 1), marks, ranksOfAccess(now));
  } else {
    showAccessChange(words, now, before);
  }
}

function showAccessChange(words, now, before) {
  const { marks, classOf } = accessChangeClasses();
  const { scales: { loss, gain }, marks: { same } } = table;
  const colourOf = (value) => (value < 0 ? loss.at(-1) : value > 0 ? gain.at(-1) : same.colour);
  showHistogram(words, Array.from(now, (access, origin) => access - before[origin]), state.weight, colourOf);
  showLosers(now, before, choose);
  const classes = Array.from(now, (access, origin) => classOf(before[origin], access));
  showOnMap("Change of access", classesOfOrigins(classes, marks.length - 1), marks, ranksOfAccess(now));
}

/** The classes of all places, where those of the origins are known. */
export function classesOfOrigins(classes, otherwise) {
  const all = new Uint8Array(head.names.length).fill(otherwise);
  classes.forEach((number, origin) => { all[numbers.origins[origin]] = number; });
  return all;
}

/** The ranks of all places by a number of each origin, the lowest first. */
export function ranksOfOrigins(values) {
  const ranks = new Float64Array(head.names.length).fill(Infinity);
  values.forEach((value, origin) => { ranks[numbers.origins[origin]] = value; });
  return ranks;
}

const ranksOfAccess = (now) => ranksOfOrigins(now.map((access) => -access));

/** The least and the most access of a measure in all scenarios, so that classes stay where scenarios are switched; and
    whether all of it is whole numbers. */
function spanOf(measure) {
  let [least, most, whole] = [Infinity, -Infinity, true];
  for (let scenario = 0; scenario < head.scenarios.length; scenario++) {
    for (const access of accessOf(scenario, state.share, measure)) {
      [least, most, whole] = [Math.min(least, access), Math.max(most, access), whole && Number.isInteger(access)];
    }
  }
  return [least, most, whole];
}

/** Takes a place as the one from which travel times are shown, where no addition takes it for something else. */
export function choose(place, event) {
  if (event === undefined) {
    page.bring(place); // what is clicked on is in the picture
  }
  return additions.some((addition) => addition.takes(place, event)) ? show() : set({ place });
}

/** The text on a place under the pointer. */
export function tipOf(place) {
  const { now, before } = current, name = nameOf(place);
  if (state.view === "access") {
    return accessTip(place, name);
  }
  const column = now === null ? -1 : numbers.columns.indexOf(place);
  if (column < 0) {
    return name;
  }
  const earlier = before === null ? "" : `${minutesTold(before[column])}, now `;
  return `${name}: ${earlier}${minutesTold(now[column])}`;
}

function accessTip(place, name) {
  const origin = numbers.originsAt[place], { number, words } = chosenMeasure();
  if (origin < 0) {
    return name;
  }
  const access = accessOf(state.scenario, state.share, number)[origin];
  if (words.nearest !== null) {
    return nearestTip(name, access, state.difference ? accessOf(0, state.share, number)[origin] : null);
  }
  const change = access - accessOf(0, state.share, number)[origin];
  return `${name}: ${told(access)} ${words.short}${state.difference ? ` (${toldChange(change)})` : ""}`;
}

/** Takes a map as the one that shows the state. */
export function setPage(map) {
  page = map;
}
