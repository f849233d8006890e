// Sliders of a question, bands and areas, and what changes in the view.

import { clockOf, dateTold, minutesOfClock, shareTold, told } from "../core/format.js";
import { setClassEnds } from "../core/table.js";
import { asked, live } from "./live.js";
import { point } from "./point.js";
import { ReachedAreas } from "../map/reached.js";
import { additions, head, isPlaced, numbers } from "../page/data.js";
import { changesTold } from "../ui/answer.js";
import { element, fill, optionsOf } from "../ui/elements.js";
import { state } from "../ui/state.js";
import { current, set, show } from "../ui/view.js";

const BANDS = 6;
export const sliders = {
  step: 10, // minutes of a band
  areas: false,
  page: null,

  begin(map) {
    this.page = map;
    const areas = new ReachedAreas(map, () => (point.isChosen() ? point.place : -1));
    map.areasUnder.push({
      isOn: () => this.areas && current.now !== null,
      paint: (pen, view) => areas.paint(pen, view, current.now, live.walk),
    });
    map.map.on("moveend", () => this.tellPicture());
    element("walk").max = asked.most_walk;
    const on = (name, change) => element(name).addEventListener("input", () => change(element(name)));
    element("percentile").addEventListener("change", () => set({ share: Number(element("percentile").value) }));
    on("trips", (it) => this.ask({ trips: Number(it.value) }));
    on("first", (it) => this.ask({ first: clockOf(Number(it.value)) }));
    on("last", (it) => this.ask({ last: clockOf(Number(it.value)) }));
    on("step", (it) => this.paintWith({ step: Number(it.value) }));
    on("areas", (it) => this.paintWith({ areas: it.checked }));
    on("walk", () => this.tellValues(Number(element("walk").value)));
    fill("percentile", ...optionsOf(head.shares.map(shareTold)));
    element("date-told").textContent = dateTold(asked.date);
  },

  /** Asks another question; a window stays one. */
  ask(change) {
    Object.assign(live, change);
    if (live.last < live.first) {
      Object.assign(live, "first" in change ? { last: live.first } : { first: live.last });
    }
    return show();
  },

  paintWith(change) {
    Object.assign(this, change);
    return show();
  },

  takes() {
    return false;
  },

  read(words) {
    const clock = (name) => (/^([01]\d|2[0-3]):[0-5]\d$/.test(words.get(name) ?? "") ? words.get(name) : live[name]);
    const whole = (name, least, most, otherwise) => {
      const number = Number(words.get(name) ?? NaN);
      return Number.isInteger(number) && number >= least && number <= most ? number : otherwise;
    };
    [live.first, live.last] = [clock("first"), clock("last")].sort();
    live.trips = whole("trips", 1, 8, live.trips);
    this.step = whole("step", 5, 30, this.step);
    this.areas = words.get("areas") === "1";
    this.setBands();
  },

  words() {
    return { first: live.first, last: live.last, trips: live.trips, step: this.step, areas: Number(this.areas) };
  },

  setBands() {
    setClassEnds(Array.from({ length: BANDS }, (_, place) => (place + 1) * this.step));
  },

  /** Shows what the sliders say, before an answer is there. */
  controls() {
    this.setBands();
    this.tellValues(live.walk);
    const values = { percentile: state.share, trips: live.trips, step: this.step,
      first: minutesOfClock(live.first), last: minutesOfClock(live.last), walk: live.walk };
    for (const [name, value] of Object.entries(values)) {
      element(name).value = value;
    }
    element("areas").checked = this.areas;
  },

  tellValues(walk) {
    const texts = { trips: live.trips, step: this.step, first: live.first,
      last: live.last, walk: told(walk / 60) };
    for (const [name, text] of Object.entries(texts)) {
      element(`${name}-told`).textContent = text;
    }
  },

  show() {
    this.tellPicture();
  },

  /** Who gains and who loses within the picture. */
  tellPicture() {
    const { now, before } = current, shown = element("within-picture");
    shown.hidden = now === null || before === null;
    if (shown.hidden) {
      return;
    }
    const inside = columnsWithin(this.page.map.getBounds());
    shown.textContent = `In this view: ${changesTold(cellsAt(now, inside), cellsAt(before, inside))}`;
  },
};

/** The columns of the places within some bounds. */
function columnsWithin(bounds) {
  const [south, north] = [bounds.getSouth(), bounds.getNorth()], [west, east] = [bounds.getWest(), bounds.getEast()];
  const found = new Int32Array(head.columns);
  let count = 0;
  for (let column = 0; column < head.columns; column++) {
    const place = numbers.columns[column];
    const latitude = numbers.places[2 * place] / 1e6, longitude = numbers.places[2 * place + 1] / 1e6;
    if (isPlaced(place) && latitude >= south && latitude <= north && longitude >= west && longitude <= east) {
      found[count++] = column;
    }
  }
  return found.subarray(0, count);
}

function cellsAt(cells, columns) {
  const found = new Uint8Array(columns.length);
  for (let at = 0; at < columns.length; at++) {
    found[at] = cells[columns[at]];
  }
  return found;
}

additions.push(sliders);
