// The shell around map and answer: the panels of a phone, menus, links, the keyboard, and short notices.

import { head, numbers } from "../page/data.js";
import { element, NARROW } from "./elements.js";
import { choose, page, set, show } from "./view.js";

const SHEETS = ["peek", "half", "full"];
const RESIZED = 60; // pixels by which the map has to change before it shows all places again, unless it was moved
const NOTICE = 2500; // milliseconds for which a short notice stays

let leaving = null; // what takes a notice away

/** Shows a notice over the map, with something to do about it where `act` is given. */
export function notice(text, label = "", act = null) {
  clearTimeout(leaving);
  element("notice").hidden = text === "";
  element("notice-told").textContent = text;
  element("notice-do").hidden = act === null;
  element("notice-do").textContent = label || "Choose";
  element("notice-do").onclick = act;
}

/** Shows a notice for a short time. */
function shortNotice(text) {
  notice(text);
  leaving = setTimeout(() => notice(""), NOTICE);
}

/** Shows one of the panels of a phone. */
export function openPanel(name) {
  document.body.dataset.panel = name;
  for (const button of element("tabs").querySelectorAll("button[value]")) {
    button.setAttribute("aria-pressed", String(button.value === name));
  }
}

/** Makes the panel of a phone larger or smaller. */
function sheet(name) {
  document.body.dataset.sheet = name;
  page.map.invalidateSize({ animate: false });
}

/** Puts what is asked in the bar into the panel of a phone, whose bar is too narrow for it, and back. */
function placeAsking() {
  const asks = [...document.querySelectorAll(".asks")], save = document.getElementById("save-study");
  if (NARROW.matches) {
    element("controls").prepend(...asks);
    document.getElementById("changes-part")?.append(save);
  } else {
    document.querySelector("#bar h1").after(...asks);
    if (save !== null) {
      element("bar").append(save);
    }
  }
}

function addPanels() {
  openPanel("answer");
  placeAsking();
  NARROW.addEventListener("change", () => {
    placeAsking();
    show();
  });
  element("key-more").addEventListener("click", () => {
    const isOpen = document.body.dataset.key !== "open";
    document.body.dataset.key = isOpen ? "open" : "";
    element("key-more").setAttribute("aria-expanded", String(isOpen));
  });
  for (const button of element("tabs").querySelectorAll("button[value]")) {
    button.addEventListener("click", () => {
      openPanel(button.value);
      sheet(document.body.dataset.sheet === "peek" ? "half" : document.body.dataset.sheet);
    });
  }
  element("handle").addEventListener("click", () =>
    sheet(SHEETS[(SHEETS.indexOf(document.body.dataset.sheet) + 1) % SHEETS.length]));
  let { clientWidth: wide, clientHeight: high } = element("stage");
  new ResizeObserver(([{ contentRect: { width, height } }]) => {
    const { isMoved } = page;
    page.map.invalidateSize({ animate: false });
    page.isMoved = isMoved;
    if (Math.hypot(width - wide, height - high) > RESIZED && !isMoved && width > 0 && height > 0) {
      page.fit();
    }
    [wide, high] = [width, height];
  }).observe(element("stage"));
}

/** Shows the map's focus and its cross to those who use the keyboard, not after a click. */
function addFocus() {
  const map = element("map");
  map.addEventListener("pointerdown", () => { map.dataset.pointed = "1"; }, true);
  document.addEventListener("keydown", () => { delete map.dataset.pointed; }, true);
}

/** A menu closes where something else is clicked on, and by Escape. */
function addMenus() {
  const menus = [...document.querySelectorAll("details.menu")].map((it) => /** @type {HTMLDetailsElement} */ (it));
  document.addEventListener("click", (event) => {
    menus.filter((it) => !it.contains(/** @type {Node} */ (event.target))).forEach((it) => { it.open = false; });
  });
  document.addEventListener("keydown", (event) => {
    if (event.key === "Escape") {
      menus.filter((it) => it.open).forEach((it) => {
        it.open = false;
        it.querySelector("summary").focus();
      });
    }
  });
  element("copy-link").addEventListener("click", async () => {
    const copied = await navigator.clipboard?.writeText(location.href).then(() => true, () => false);
    shortNotice(copied ? "The link is copied." : "Copy the address of this page: it leads to this view.");
  });
  element("print").addEventListener("click", () => window.print());
}

/** Enter chooses the place at the cross in the middle of the map; E makes it the end of a journey, if there are any. */
function addKeys() {
  const map = page.map.getContainer();
  map.addEventListener("keydown", (event) => {
    if (event.target !== map || (event.key !== "Enter" && event.key.toLowerCase() !== "e")) {
      return;
    }
    const place = page.placeAt(page.map.getSize().divideBy(2));
    if (place < 0) {
      shortNotice("No place at the cross: move the map with the arrow keys.");
    } else {
      choose(place, { originalEvent: { shiftKey: event.key !== "Enter" } });
    }
  });
  element("clear").addEventListener("click", () => {
    element("search").value = "";
    element("search").focus();
    set({ place: -1 });
  });
}

export function addShell() {
  addFocus();
  addPanels();
  addMenus();
  addKeys();
}

/** The placed column that is nearest to a place, and its distance in metres. */
export function nearestColumn(latitude, longitude) {
  let [found, least] = [-1, Infinity];
  const metre = 111195, narrow = Math.cos((latitude * Math.PI) / 180);
  for (let column = 0; column < head.columns; column++) {
    const place = numbers.columns[column];
    const north = (numbers.places[2 * place] / 1e6 - latitude) * metre;
    const east = (numbers.places[2 * place + 1] / 1e6 - longitude) * metre * narrow, far = Math.hypot(north, east);
    if (far < least) {
      [found, least] = [place, far];
    }
  }
  return { place: found, metres: least };
}
