// What a change costs, in the card, before it is applied.

import { costTold } from "../core/format.js";
import { answerOf, live } from "./live.js";
import { routes } from "./routes.js";
import { additions } from "../page/data.js";
import { element } from "../ui/elements.js";

const COST_AFTER = 250; // milliseconds after the last key
const COST_FIELDS = ["headway-from", "headway-to", "headway-every", "line-speed", "line-dwell", "line-first", "line-last",
  "line-every"];

export const cost = {
  waiting: null, // what asks for the cost
  asked_: Promise.resolve(), // the question that is on its way
  last: "", // what was asked for

  begin() {
    COST_FIELDS.forEach((name) => element(name).addEventListener("input", () => this.show()));
  },

  takes: () => false,
  read() {},
  words: () => ({}),
  controls() {},

  /** The change of the open card, and where its cost is shown; null where there is none. */
  wanted() {
    if (!element("route-card").hidden && !element("card").hidden && routes.chosen >= 0) {
      return { action: routes.headwayAction(60 * Math.round(Number(element("headway-every").value))), at: "headway-cost" };
    }
    const isLine = !element("line-card").hidden && routes.stops.length > 1;
    return isLine ? { action: routes.lineAction(), at: "line-cost" } : null;
  },

  /** Asks for the cost if the card shows another change. */
  show() {
    const wanted = this.wanted(), text = JSON.stringify([wanted, live.actions]);
    if (text === this.last) {
      return;
    }
    this.last = text;
    ["headway-cost", "line-cost"].forEach((name) => { element(name).textContent = ""; });
    clearTimeout(this.waiting);
    if (wanted !== null) {
      this.waiting = setTimeout(() => { this.asked_ = this.ask(wanted, text); }, COST_AFTER);
    }
  },

  /** Shows the cost; a change that is refused has none, and its error is shown when it is applied. */
  async ask({ action, at }, text) {
    const body = { actions: [...live.actions, action] };
    const found = await answerOf("cost", {}, body).then((it) => it.json()).catch(() => null);
    if (text === this.last) {
      element(at).textContent = found === null || "refused" in found ? "" : costTold(found);
    }
  },
};

additions.push(cost);
