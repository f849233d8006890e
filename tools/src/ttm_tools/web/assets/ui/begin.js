// How a page begins: its controls, its map, and what prints.

import { PageMap } from "../map/map.js";
import { additions, head, readNumbers } from "../page/data.js";
import { shareTold } from "../core/format.js";
import { pairsTold } from "../core/opposite.js";
import { showAll } from "./answer.js";
import { element, fill, made, optionsOf } from "./elements.js";
import { fillCounted } from "./headline.js";
import { Search } from "./search.js";
import { addShell } from "./shell.js";
import { readAddress, state } from "./state.js";
import { choose, current, page, set, setPage, show, tipOf } from "./view.js";
import { fillViews } from "./views.js";

/** Fills the lists of the controls. */
export function fillControls() {
  fill("scenario", ...optionsOf(head.scenarios));
  fill("share", ...optionsOf(head.shares.map(shareTold)));
  fillCounted();
  fillViews();
  const names = [...new Set(head.measures.map((measure) => measure.of))];
  fill("counted", ...names.map((name) => made("option", name, { value: name })));
  const people = head.people.map((name) => made("option", name, { value: head.counts.indexOf(name) }));
  fill("weight", made("option", "places", { value: -1 }), ...people);
  element("scenario-field").hidden = head.scenarios.length < 3; // the views name two of them
  element("share-field").hidden = head.shares.length < 2;
  element("weight-field").hidden = people.length === 0;
  element("view-field").hidden = head.measures.length === 0;
}

/** Says what each of the controls does. */
export function addControls() {
  const on = (name, kind, change) => element(name).addEventListener(kind, () => set(change(element(name))));
  element("controls").addEventListener("submit", (event) => event.preventDefault());
  for (const radio of /** @type {any} */ (document.getElementsByName("view"))) {
    radio.addEventListener("change", () => set({ view: radio.value }));
  }
  for (const name of ["share", "within", "weight"]) {
    on(name, "change", (it) => ({ [name]: Number(it.value) }));
  }
  const whether = () => state.difference || state.scenario === 0; // to show the difference, as before
  on("scenario", "change", (it) => ({ difference: whether(), scenario: Number(it.value) }));
  on("curve-of", "change", (it) => ({ count: Number(it.value) }));
  on("counted", "change", (it) => ({ of: it.value }));
  on("minutes", "input", (it) => ({ minutes: Number(it.value) }));
  on("from-here", "click", () => ({ view: "times" }));
  element("all-part").addEventListener("toggle", () => {
    if (element("all-part").open && current.now !== null) {
      showAll(current.now, current.before);
    }
  });
}

/** On paper the map has the size of the sheet, finer, and what is folded is open. */
function addPrinting() {
  const folded = element("sources");
  let was = false;
  const resize = (finest) => {
    page.map.options.finest = finest;
    page.map.invalidateSize({ animate: false });
    page.fit();
    page.map.fire("viewreset");
  };
  window.addEventListener("beforeprint", () => {
    was = folded.open;
    folded.open = true;
    document.body.classList.add("printing");
    resize(2);
  });
  window.addEventListener("afterprint", () => {
    folded.open = was;
    document.body.classList.remove("printing");
    resize(1);
  });
}

export async function begin() {
  readAddress();
  fillControls();
  await readNumbers();
  setPage(new PageMap(choose, tipOf));
  page.sharing = (count) => { element("key-pairs").textContent = pairsTold(count); };
  addControls();
  addPrinting();
  addShell();
  for (const addition of additions) {
    addition.begin(page);
  }
  new Search(choose);
  window.addEventListener("hashchange", () => {
    readAddress();
    additions.forEach((addition) => addition.returned?.());
    show();
  });
  await show();
  performance.mark("shown");
}
