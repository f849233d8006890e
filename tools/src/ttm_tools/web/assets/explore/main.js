// The entry of the page of `explore`: its modules, and how it begins.

import "./live.js";
import "./sliders.js";
import "./journey.js";
import "./routes.js";
import "./cost.js";
import "./beside.js";
import "./keep.js";
import "./point.js";
import { begin } from "../ui/begin.js";
import { element } from "../ui/elements.js";

export const begun = begin();
begun.catch((fault) => {
  element("heading").textContent = "This page can't be shown";
  element("told").textContent = "DecompressionStream" in window ? `${fault}`
    : "This browser is too old: take one of 2023 or later (Chrome, Edge, Firefox, Safari).";
});
