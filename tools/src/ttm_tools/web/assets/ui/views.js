// The views: a scenario, the one with which it is compared, and what differs between them.

import { head } from "../page/data.js";
import { element, made } from "./elements.js";
import { state } from "./state.js";
import { set } from "./view.js";

const TODAY = "today", SCENARIO = "scenario", DIFFERENCE = "difference";

/** What else a page can show of two scenarios, such as both side by side.
 * @typedef {{ name: string, label: string, isShown: () => boolean, open: (on: boolean) => void }} MoreView
 */

export const moreViews = /** @type {MoreView[]} */ ([]);

/** The name of the scenario that is shown, or would be. */
function chosen() {
  return state.scenario || 1;
}

/** Fills the control with the views that there are. */
export function fillViews() {
  element("views").hidden = head.scenarios.length < 2;
  const labels = [[TODAY, head.scenarios[0]], [SCENARIO, head.scenarios[chosen()]], [DIFFERENCE, "Difference"],
    ...moreViews.map(({ name, label }) => [name, label])];
  element("views").replaceChildren(element("views").firstElementChild, ...labels.map(([name, label]) => {
    const radio = made("input", "", { type: "radio", name: "shown", value: name, id: `view-${name}` });
    radio.addEventListener("change", () => take(name));
    return made("label", [radio, made("span", label ?? "")]);
  }));
  const listed = element("views-listed");
  listed.hidden = head.scenarios.length < 2;
  listed.replaceChildren(...labels.map(([name, label]) => made("option", listedName(name, label), { value: name })));
  listed.onchange = () => take(listed.value);
}

/** What a narrow page calls a view. */
function listedName(name, label) {
  return name === DIFFERENCE ? `${head.scenarios[chosen()]} vs ${head.scenarios[0]}` : label ?? "";
}

function take(name) {
  moreViews.forEach((view) => view.open(view.name === name));
  set({ scenario: name === TODAY ? 0 : chosen(), difference: name === DIFFERENCE });
}

/** Shows which of them is chosen. */
export function showViews() {
  const more = moreViews.find((view) => view.isShown());
  const name = more !== undefined ? more.name : state.scenario === 0 ? TODAY : state.difference ? DIFFERENCE : SCENARIO;
  for (const radio of element("views").querySelectorAll("input")) {
    radio.checked = radio.value === name;
    if (radio.value === SCENARIO) {
      radio.nextElementSibling.textContent = head.scenarios[chosen()] ?? "";
    }
  }
  element("views-listed").value = name;
}
