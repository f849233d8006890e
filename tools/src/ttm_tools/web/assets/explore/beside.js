// Two scenarios side by side: a second map of what others are compared with, which moves as the first one does.

import { minutesFrom } from "../core/source.js";
import { PageMap } from "../map/map.js";
import { additions, head, nameOf } from "../page/data.js";
import { element, made } from "../ui/elements.js";
import { state } from "../ui/state.js";
import { choose, classesOfTimes, turn } from "../ui/view.js";
import { moreViews } from "../ui/views.js";

export const beside = {
  on: false,
  page: null,
  other: null, // the second map, once it was wanted

  begin(map) {
    this.page = map;
  },

  takes: () => false,

  read(words) {
    this.on = words.get("beside") === "1";
  },

  words() {
    return { beside: Number(this.isShown()) };
  },

  isShown() {
    return this.on && state.scenario > 0 && !state.difference;
  },

  controls() {},

  async show({ now }) {
    const shown = this.isShown() && now !== null;
    if (shown !== (this.other !== null && !this.other.map.getContainer().hidden)) {
      this.open(shown);
    }
    if (!shown) {
      return;
    }
    const own = turn, cells = await minutesFrom(state.place, 0, state.share);
    if (own === turn && cells !== null) {
      this.other.show({ ...classesOfTimes(cells, null), place: state.place, scenario: 0 });
      [this.other, this.page].forEach((it, side) => this.name(it, head.scenarios[side && state.scenario]));
    }
  },

  /** Shows the second map, or takes it away; both have the same middle. */
  open(shown) {
    if (this.other === null) {
      const box = made("div", "", { id: "map-before", role: "application", "aria-label": "Map of the other scenario" });
      element("map").before(box);
      this.other = new PageMap(choose, nameOf, "map-before");
      const follow = (one, two) => one.map.on("move", () => this.follow(one, two));
      follow(this.page, this.other);
      follow(this.other, this.page);
    }
    this.other.map.getContainer().hidden = !shown;
    document.querySelectorAll(".side").forEach((it) => it.remove());
    [this.page, this.other].forEach((it) => it.map.invalidateSize({ animate: false }));
    [this.other, this.page].filter((it) => !it.map.getContainer().hidden).forEach((it) => it.fit());
  },

  follow(one, two) {
    if (!this.following) {
      this.following = true;
      two.map.setView(one.map.getCenter(), one.map.getZoom(), { animate: false });
      this.following = false;
    }
  },

  /** Says above a map which scenario it shows. */
  name(map, text) {
    const top = map.map.getContainer().querySelector(".leaflet-top.leaflet-left");
    top.querySelector(".side")?.remove();
    top.prepend(made("div", text, { class: "side leaflet-control" }));
  },
};

additions.push(beside);
moreViews.push({
  name: "beside", label: "Side by side", isShown: () => beside.isShown(), open: (on) => { beside.on = on; },
});
