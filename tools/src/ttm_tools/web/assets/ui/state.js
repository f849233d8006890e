// The page's state, which is also in the address after #, so that a link leads to a view.

import { additions, head } from "../page/data.js";

const MOST_MINUTES = 120; // of the slider
const ADDRESS_EVERY = 250; // milliseconds between changes of the address, of which browsers take 20 a second at most
const ADDRESS_AFTER = 50; // milliseconds from a picture to its address: first the picture is painted
export const state = {
  view: "times", // or access
  scenario: 0,
  difference: false, // from scenario 0
  share: 0,
  place: -1, // that is chosen; -1 for none
  minutes: head.minutes, // of the slider
  of: "", // what access counts
  within: 0, // which of its limits
  count: Math.min(1, head.reached.length), // what travel times lead to: 0 for places, else a number of `head.reached`
  weight: -1, // of the histogram: a column of counts, or -1 for places
};

let addressed = -Infinity, addressing = null; // when the address was written, and what writes it later
// What makes a step of Back and Forward.
const CHOICES = ["view", "scenario", "difference", "from", "at", "end", "actions", "beside"];
let lastChosen = ""; // these in the address
let address = ""; // the part after # when it was last read or written
/** Writes the address once the picture is painted, and a little later while a slider is dragged. */
export function keepAddress() {
  const wait = addressed + ADDRESS_EVERY - performance.now();
  clearTimeout(addressing);
  addressing = setTimeout(writeAddress, Math.max(ADDRESS_AFTER, Math.ceil(wait)));
}

/** The state as it stands in the address. */
function writeAddress() {
  if (location.hash !== address) {
    return; // the user typed another one, which is read next
  }
  addressed = performance.now();
  const words = /** @type {any} */ ({
    view: state.view,
    scenario: head.scenarios[state.scenario],
    difference: Number(state.difference),
    share: head.shares[state.share] ?? "",
    from: head.identifiers[state.place] ?? "",
    minutes: state.minutes,
    count: state.count === 0 ? "places" : head.counts[head.reached[state.count - 1]],
    of: state.of,
    within: state.within,
  });
  for (const addition of additions) {
    Object.assign(words, addition.words());
  }
  const chosen = JSON.stringify(CHOICES.map((name) => words[name])), isNew = lastChosen !== "" && chosen !== lastChosen;
  lastChosen = chosen;
  try {
    history[isNew ? "pushState" : "replaceState"](null, "", `#${new URLSearchParams(words)}`);
    address = location.hash;
  } catch {
    // a browser that keeps addresses of files as they are
  }
}

/** The state that an address asks for, as far as the page has it. */
export function readAddress() {
  address = location.hash;
  const words = new URLSearchParams(location.hash.slice(1)), several = head.scenarios.length > 1;
  const place = (names, name, otherwise) => {
    const found = words.has(name) ? names.indexOf(words.get(name)) : -1;
    return found < 0 ? otherwise : found;
  };
  const minutes = Math.round(Number(words.get("minutes"))), names = head.measures.map((measure) => measure.of);
  const views = head.measures.length ? ["times", "access"] : ["times"];
  state.view = views[place(views, "view", views.length - 1)]; // before a place is chosen, access alone is something
  state.scenario = place(head.scenarios, "scenario", Number(several));
  state.difference = state.scenario > 0 && words.get("difference") !== "0";
  state.share = place(head.shares.map(String), "share", Math.floor((head.shares.length - 1) / 2));
  state.place = place(head.identifiers, "from", -1);
  const counted = ["places", ...head.reached.map((it) => head.counts[it])];
  state.count = place(counted, "count", Math.min(1, head.reached.length));
  state.minutes = minutes >= 1 && minutes <= MOST_MINUTES ? minutes : head.minutes;
  const sought = head.measures.findIndex((measure) => measure.nearest !== null);
  state.of = names[place(names, "of", Math.max(0, sought))] ?? ""; // who asked for the nearest wants to see it first
  const limits = head.measures.filter((it) => it.of === state.of).map((it) => it.seconds);
  const first = Math.max(0, limits.indexOf(60 * head.minutes));
  state.within = words.has("within") ? Math.max(0, Math.round(Number(words.get("within"))) || 0) : first;
  for (const addition of additions) {
    addition.read(words);
  }
  lastChosen = ""; // what was gone back to is no new step
}
