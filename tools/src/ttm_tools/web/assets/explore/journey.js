// The journey from the chosen place to another one, leg by leg, on the map, and its duration by departure.

import { minutesAndSeconds, told } from "../core/format.js";
import { table } from "../core/table.js";
import { answerOf, live, tellFault } from "./live.js";
import { point } from "./point.js";
import { paintDestination, strokeAs } from "../map/marks.js";
import { additions, head, isPlaced, nameOf } from "../page/data.js";
import { element, fill, made, shape } from "../ui/elements.js";
import { state } from "../ui/state.js";
import { nameSearched } from "../ui/view.js";

const journey = {
  end: -1, // the place where it ends; -1 for none
  found: null,
  key: "", // of the last question
  page: null,

  begin(map) {
    this.page = map;
    map.over.push((pen, view) => this.paint(pen, view));
  },

  takes(place, event) {
    if (modeOf() !== "end" && !event?.originalEvent?.shiftKey) {
      return false;
    }
    this.end = place;
    return true;
  },

  read(words) {
    this.end = words.has("end") ? head.identifiers.indexOf(words.get("end")) : -1;
  },

  words() {
    return { end: this.end < 0 ? "" : head.identifiers[this.end] };
  },

  controls() {
    if (modeOf() === "end") {
      nameSearched(this.end < 0 ? "" : nameOf(this.end));
    }
  },

  /** Asks for the journey where it is another one than before. */
  async show() {
    const { first, last, trips, version } = live, { place: origin, scenario } = state, { end } = this;
    const words = { origin, end, first, last, trips, scenario, share: head.shares[state.share] };
    const key = end < 0 || origin < 0 || point.isChosen() ? "" : JSON.stringify([version, words]);
    if (key === this.key) {
      return;
    }
    Object.assign(this, { key, found: null });
    element("journey-part").hidden = key === "";
    fill("legs");
    fill("departures");
    if (key !== "") {
      element("journey-title").textContent = `Journey to ${nameOf(end)}: searching`;
      const found = await answerOf("journey", { ...words, version, tab: live.tab }).then((it) => it.json())
        .catch((fault) => tellFault(fault));
      if (key === this.key && found !== undefined) {
        this.found = found;
        this.tell();
      }
    }
    this.page.drawing.draw();
  },

  tell() {
    const { cell, legs, durations, departures, chosen } = this.found, name = nameOf(this.end);
    element("journey-title").textContent = cell === null ? `Journey to ${name}: not reached`
      : `Journey to ${name}: ${told(Math.ceil(cell / 60))} min, leaving at ${departures[chosen]}`;
    fill("legs", ...legs.map((leg) => made("li", legTold(leg))));
    const isReached = durations.some((it) => it !== null);
    fill("departures", ...(isReached ? [departuresOf(durations, departures, chosen, cell)] : []));
  },

  paint(pen, view) {
    if (this.found === null) {
      return;
    }
    for (const leg of this.found.legs) {
      const places = leg.via.filter((place) => place >= 0 && isPlaced(place));
      pen.beginPath();
      places.forEach((place) => pen.lineTo(...this.page.at(place, view)));
      strokeAs(pen, leg.route === undefined ? table.lines.walk : table.lines.journey);
    }
    if (this.end >= 0 && isPlaced(this.end)) {
      paintDestination(pen, ...this.page.at(this.end, view));
    }
  },
};

function legTold(leg) {
  const stop = (place) => (place < 0 ? "a stop" : nameOf(place));
  if (leg.route === undefined) {
    return `${leg.begin} walk ${minutesAndSeconds(leg.seconds)} to ${stop(leg.to)}`;
  }
  const waits = [leg.change ? `change ${minutesAndSeconds(leg.change)}, ` : "",
    leg.wait > 0 ? `wait ${minutesAndSeconds(leg.wait)}, ` : ""].join("");
  return `${waits}${leg.begin} route ${leg.route} from ${stop(leg.from)} to ${stop(leg.to)}, ${leg.end}`;
}

/** The duration of each departure: a saw-tooth, whose teeth are waits. */
function departuresOf(durations, departures, chosen, cell) {
  const [wide, high, left, low] = [380, 150, 46, 30], minutes = durations.map((it) => (it === null ? null : it / 60));
  const most = Math.max(1, ...minutes.filter((it) => it !== null)), last = Math.max(1, durations.length - 1);
  const span = `${departures[0]} to ${departures[departures.length - 1]}`;
  const text = `Duration by departure, ${span}: up to ${told(most)} minutes`;
  const drawn = shape("svg", { viewBox: `0 0 ${wide} ${high}`, role: "img", "aria-label": text });
  const across = (place) => left + (place / last) * (wide - left - 12);
  const up = (it) => 8 + (1 - it / most) * (high - 8 - low), { ink, soft } = table.tokens;
  let points = [];
  const flush = () => {
    drawn.append(shape("polyline", { points: points.join(" "), fill: "none", stroke: ink, "stroke-width": 1.5 }));
    points = [];
  };
  minutes.forEach((it, place) => {
    if (it === null) {
      flush();
      drawn.append(shape("text", { x: across(place), y: 14, "text-anchor": "middle" }, "×"));
    } else {
      points.push(`${across(place).toFixed(1)},${up(it).toFixed(1)}`);
    }
  });
  flush();
  if (cell !== null) {
    drawn.append(shape("line", { x1: left, x2: wide - 12, y1: up(cell / 60), y2: up(cell / 60), stroke: soft,
      "stroke-dasharray": "4 3" }));
    drawn.append(shape("circle", { cx: across(chosen), cy: up(minutes[chosen]), r: 5, fill: "none", stroke: ink,
      "stroke-width": 2 }));
  }
  for (const place of [0, last]) {
    const how = { x: across(place), y: high - 12, "text-anchor": place ? "end" : "start" };
    drawn.append(shape("text", how, departures[Math.min(place, departures.length - 1)]));
  }
  for (const value of [0, most]) {
    drawn.append(shape("text", { x: left - 5, y: up(value) + 4, "text-anchor": "end" }, told(value)));
  }
  return drawn;
}

/** What a click chooses. */
export function modeOf() {
  return /** @type {HTMLInputElement} */ (document.querySelector("input[name=click]:checked")).value;
}

/** Has clicks choose something else, as if its tool was pressed. */
export function setMode(mode) {
  const radio = /** @type {HTMLInputElement} */ (document.querySelector(`input[name=click][value=${mode}]`));
  radio.checked = true;
  radio.dispatchEvent(new Event("change"));
}

additions.push(journey);
