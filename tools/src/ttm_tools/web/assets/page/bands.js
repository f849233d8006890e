// Whether the areas that are reached are painted; a page with a live source has sliders for them.

import { ReachedAreas } from "../map/reached.js";
import { ReachedStreets } from "../map/streets.js";
import { additions, head, numbers } from "./data.js";
import { element } from "../ui/elements.js";
import { state } from "../ui/state.js";
import { current, page, show } from "../ui/view.js";

export const bands = {
  on: false,
  ready: null, // a promise of the streets, where the page has some, as soon as they are wanted

  begin(map) {
    const areas = head.streets === null ? new ReachedAreas(map) : new ReachedStreets(map);
    this.areas = areas;
    const isCell = (place) => numbers.widths[place] > 0 || map.areas.has(place);
    map.areasUnder.push({
      isOn: () => this.on && state.view === "times" && current.now !== null,
      paint: (pen, view) => areas.paint(pen, view, current.now, head.walk),
    });
    element("areas-field").hidden = Array.from(numbers.columns).every(isCell); // their colours are the areas
    element("areas").addEventListener("change", () => {
      this.on = element("areas").checked;
      return show();
    });
  },

  takes: () => false,

  read(words) {
    this.on = words.get("areas") === "1";
  },

  words() {
    return this.on ? { areas: 1 } : {};
  },

  controls() {
    element("areas").checked = this.on;
  },

  /** Reads the streets where they are wanted for the first time, and paints what is shown again. */
  show() {
    if (this.on && head.streets !== null && this.ready === null) {
      this.ready = this.areas.read().then(() => page.drawing.draw());
    }
  },
};

additions.push(bands);
