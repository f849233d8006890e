// The entry of the page to send: its modules, and how it begins.

import "./cells.js";
import "./bands.js";
import "./kept.js";
import { begin } from "../ui/begin.js";
import { element } from "../ui/elements.js";

export const begun = begin();
begun.catch((fault) => {
  element("heading").textContent = "This page can't be shown";
  element("told").textContent = "DecompressionStream" in window ? `${fault}`
    : "This browser is too old: take one of 2023 or later (Chrome, Edge, Firefox, Safari).";
});
