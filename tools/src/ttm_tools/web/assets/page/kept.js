// Saves a picture of the map.

import { shareTold } from "../core/format.js";
import { additions, head } from "./data.js";
import { element } from "../ui/elements.js";
import { download, pictureOf } from "../ui/picture.js";
import { state } from "../ui/state.js";

export const kept = {
  begin(map) {
    element("save-picture").addEventListener("click", async () => download("map.png", await this.picture(map)));
  },

  takes: () => false,
  read() {},
  words: () => ({}),
  controls() {},
  show() {},

  picture: (map) => pictureOf(map, shareTold(head.shares[state.share])),
};

additions.push(kept);
