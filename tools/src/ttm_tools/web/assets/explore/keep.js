// Saves the picture, the numbers, and a study that computes all of it.

import { shareTold } from "../core/format.js";
import { answerOf, asker, live, tellFault } from "./live.js";
import { point } from "./point.js";
import { additions, head, numbers } from "../page/data.js";
import { element, fill, made } from "../ui/elements.js";
import { download, pictureOf } from "../ui/picture.js";
import { state } from "../ui/state.js";

const keep = {
  page: null,

  begin(map) {
    this.page = map;
    const on = (name, act) => element(name).addEventListener("click", () => act().catch(tellFault));
    on("save-picture", async () => download("explored.png", await this.picture()));
    on("save-numbers", async () => download("explored.csv", new Blob([this.numbers()], { type: "text/csv" })));
    on("save-study", () => this.study());
  },

  takes: () => false,
  read() {},
  words: () => ({}),
  controls() {},
  show() {},

  /** The map with its title and key, as it is shown. */
  picture() {
    const when = `${element("date-told").textContent}, ${live.first}–${live.last}`;
    return pictureOf(this.page, `${when} · ${shareTold(head.shares[state.share])}`);
  },

  /** A line for each place: its identifier, name, and seconds of each scenario and percentile. */
  numbers() {
    const { version, first, last, trips } = live, field = (it) => `"${String(it).replaceAll('"', '""')}"`;
    const question = { version, ...point.originOf(state.place), first, last, trips };
    const all = asker.answers.get(JSON.stringify(question)) ?? [];
    const heads = head.scenarios.flatMap((name) => head.shares.map((share) => field(`${name} p${share}`)));
    const lines = Array.from(numbers.columns, (place, column) => {
      const cells = heads.map((_, row) => all[row * head.columns + column] ?? -1);
      const seconds = cells.map((it) => (it < 0 ? "" : it));
      return [field(head.identifiers[place]), field(head.names[place]), ...seconds].join(",");
    });
    return [["stop_id", "name", ...heads].join(","), ...lines, ""].join("\n");
  },

  async study() {
    const { first, last, trips, version, tab } = live;
    const origin = point.isChosen() ? point.originOf(state.place) : state.place;
    const answer = await answerOf("study", {}, { first, last, trips, origin, version, tab });
    const { command } = await answer.json();
    fill("kept", "Saved. To compute all of it, run: ", made("code", command));
  },
};

additions.push(keep);
