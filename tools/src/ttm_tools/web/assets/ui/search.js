// The search: a list of the places whose name or identifier has the text, those that begin with it first.

import { MOST_FOUND, plain } from "../core/search.js";
import { head, nameOf } from "../page/data.js";
import { element, fill, made } from "./elements.js";
import { openPanel } from "./shell.js";

export class Search {
  constructor(choose) {
    this.choose = choose;
    this.field = element("search");
    this.texts = head.names.map((name, place) => plain(`${name}\n${head.identifiers[place]}`));
    this.mark([], -1);
    this.field.addEventListener("input", () => this.look());
    this.field.addEventListener("blur", () => this.mark([], -1));
    this.field.addEventListener("keydown", (event) => this.press(event));
  }

  /** Looks for what was typed. */
  look() {
    const text = plain(this.field.value.trim()), first = [], within = [];
    for (let place = 0; text && place < this.texts.length && first.length < MOST_FOUND; place++) {
      const at = this.texts[place].indexOf(text);
      if (at === 0 || this.texts[place][at - 1] === "\n") {
        first.push(place);
      } else if (at > 0) {
        within.push(place);
      }
    }
    this.mark([...first, ...within].slice(0, MOST_FOUND), 0);
  }

  /** Shows what was found, one of it as the one that Enter takes. */
  mark(found, active) {
    this.found = found;
    this.active = found.length ? active : -1;
    fill("found", ...found.map((place, at) => {
      const words = { role: "option", id: `found-${at}`, "aria-selected": at === this.active };
      const option = made("li", nameOf(place), words);
      option.addEventListener("mousedown", (event) => {
        event.preventDefault();
        this.take(at);
      });
      return option;
    }));
    element("found").hidden = found.length === 0;
    this.field.setAttribute("aria-expanded", String(found.length > 0));
    this.field.setAttribute("aria-activedescendant", this.active < 0 ? "" : `found-${this.active}`);
  }

  take(at) {
    const place = this.found[at];
    this.mark([], -1);
    this.field.value = ""; // the placeholder has the name of the chosen place
    this.choose(place);
    if (element("card")?.hidden !== false) { // the card of a new line takes several stops
      openPanel("answer");
    }
  }

  press(event) {
    const step = { ArrowDown: 1, ArrowUp: -1 }[event.key], count = this.found.length;
    if (step && count) {
      this.mark(this.found, (this.active + step + count) % count);
    } else if (event.key === "Enter" && this.active >= 0) {
      this.take(this.active);
    } else if (event.key === "Escape") {
      this.mark([], -1);
    } else {
      return;
    }
    event.preventDefault();
  }
}
