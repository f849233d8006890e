// Any point of the map: a click that is near no stop or cell. It has a number behind those of all places, so that it is
// chosen as they are; travel times from there come from a run of its own.

import { NEVER } from "../core/constants.js";
import { told } from "../core/format.js";
import { beside } from "./beside.js";
import { modeOf } from "./journey.js";
import { live } from "./live.js";
import { onWorld } from "../map/projection.js";
import { additions, head, nameOf, numbers } from "../page/data.js";
import { nearestColumn, notice } from "../ui/shell.js";
import { state } from "../ui/state.js";
import { page, set } from "../ui/view.js";

export const point = {
  wanted: null, // by the address, until there is a map
  wasLost: false, // whether no stop was in reach of it when it was shown last
  at: null, // latitude and longitude in degrees, as the server gets them; null for none

  begin(map) {
    map.nowhere = ({ latlng }) => this.choose(latlng);
    this.take();
  },

  get place() {
    return head.names.length;
  },

  isChosen() {
    return state.place === this.place && this.at !== null;
  },

  choose({ lat, lng }) {
    if (modeOf() === "start") {
      this.put(lat, ((lng + 540) % 360) - 180);
      set({ place: this.place });
    }
  },

  /** Gives the point a place on the map. */
  put(latitude, longitude) {
    this.at = [latitude, longitude].map((it) => it.toFixed(6));
    const places = new Int32Array(2 * this.place + 2);
    places.set(numbers.places.subarray(0, 2 * this.place));
    places.set(this.at.map((it) => Math.round(1e6 * it)), 2 * this.place);
    numbers.places = places;
    head.point = `the point ${this.at.join(", ")}`;
    for (const map of [page, beside.other].filter((it) => it !== null)) {
      map.points = onWorld(numbers.places);
    }
  },

  /** The question to the server about a place. */
  originOf(place) {
    return place === this.place ? { lat: this.at[0], lon: this.at[1] } : { origin: place };
  },

  takes: () => false,

  read(words) {
    const found = (words.get("at") ?? "").split(",").map(Number);
    const isPoint = found.length === 2 && Math.abs(found[0]) <= 85 && Math.abs(found[1]) <= 180;
    this.wanted = isPoint ? found : null;
    if (page !== null) {
      this.take();
    }
  },

  /** Chooses the point that an address names. */
  take() {
    if (this.wanted !== null) {
      this.put(...this.wanted);
      this.wanted = null;
      state.place = this.place;
    }
  },

  words() {
    return { at: this.isChosen() ? this.at.join(",") : "" };
  },

  controls() {},

  /** Says where no stop is in reach of a point, and offers the nearest one. */
  show({ now }) {
    const isLost = this.isChosen() && now !== null && now.every((minutes) => minutes === NEVER);
    if (isLost) {
      const { place, metres } = nearestColumn(Number(this.at[0]), Number(this.at[1]));
      const text = `No stop within ${told(live.walk / 60)} min on foot. The nearest is ${nameOf(place)}, `
        + `${told(Math.round(metres / 10) * 10)} m away.`;
      notice(text, "Start there", () => set({ place }));
    } else if (this.wasLost) {
      notice("");
    }
    this.wasLost = isLost;
  },
};

additions.push(point);
