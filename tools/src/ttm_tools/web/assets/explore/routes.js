// Changes of the network: a route is chosen on the map or in the list, and each change is an action of a plan.

import { CHANGED_LINES } from "../core/constants.js";
import { dateTold, minutesOfClock, told } from "../core/format.js";
import { farFrom } from "../core/geometry.js";
import { namedActions, numberedActions } from "../core/links.js";
import { table } from "../core/table.js";
import { areRight, clearErrors, clockIn, toldAtField } from "./fields.js";
import { modeOf, setMode } from "./journey.js";
import { answerOf, asked, live, tellFault } from "./live.js";
import { sliders } from "./sliders.js";
import { paintMark, strokeAs } from "../map/marks.js";
import { additions, head, isPlaced, nameOf, numbers } from "../page/data.js";
import { fillControls } from "../ui/begin.js";
import { element, fill, made, optionsOf } from "../ui/elements.js";
import { notice } from "../ui/shell.js";
import { state } from "../ui/state.js";
import { nameSearched, show } from "../ui/view.js";

const OWN = 9; // places of other routes that weigh as much as one of what is being changed
const CARD = 12, BELOW_TOOLS = 64; // pixels from the card to the edges of the map
const NEAR_LINE = 12; // pixels from a route's line at which a click takes it
export const routes = {
  all: [], // as the server sends them
  chosen: -1,
  stops: [], // of a new line, or of a longer route
  redo: [], // changes that were undone
  page: null,
  changing: Promise.resolve(), // the change that is on its way

  async begin(map) {
    this.page = map;
    map.under.push((pen, view) => this.paintChosen(pen, view));
    map.over.push((pen, view) => this.paintStops(pen, view));
    map.map.on("click", (event) => this.clicked(event));
    this.addControls();
    this.tellChanges(asked.told);
    this.read_ = answerOf("routes", {}).then((it) => it.json()).then(({ routes: all, running }) => {
      this.all = all;
      if (running !== null) {
        numbers.running = Int32Array.from(running);
        map.lower.draw();
      }
      fill("route", made("option", "choose one", { value: -1 }), ...optionsOf(all.map((route) => route.name)));
    }).catch(tellFault);
    await this.returned();
  },

  addControls() {
    const on = (name, act) => element(name).addEventListener("click", act);
    const value = (name) => element(name).value, whole = (name) => Math.round(Number(value(name)));
    const own = () => ({ route: this.chosen });
    const period = ["headway-from", "headway-to"];
    const headway = (every) => this.add(this.headwayAction(every()));
    for (const name of ["route-card", "line-card"]) {
      element(name).addEventListener("submit", (event) => event.preventDefault());
    }
    element("route").addEventListener("change", () => this.choose(Number(value("route"))));
    element("way").addEventListener("change", () => this.tellWay());
    element("walk").addEventListener("change", () => this.change({ actions: live.actions, walk: whole("walk") }));
    on("take-out", () => this.add({ do: "remove_route", ...own() }));
    const right = (names, act) => () => areRight(...names) && act();
    on("headway", right([...period, "headway-every"], () => headway(() => 60 * whole("headway-every"))));
    on("twice", right(period, () => headway(() => this.halfOf())));
    on("speed", right(["faster"], () =>
      this.add({ do: "speed", ...own(), factor: (1 - whole("faster") / 100).toFixed(2) })));
    on("cut", () => this.add({ do: "cut", ...own(), way: whole("way"), after: whole("cut-at") }));
    const pace = () => ({ stops: this.stops, speed: value("line-speed"), dwell: whole("line-dwell") });
    on("extend", right(["line-speed", "line-dwell"], () =>
      this.add({ do: "extend", ...own(), way: whole("way"), ...pace() })));
    const line = ["line-name", "line-speed", "line-dwell", "line-first", "line-last", "line-every"];
    on("add-line", right(line, () => this.add(this.lineAction())));
    on("forget-stops", () => this.keepStops([]));
    on("undo", () => this.undo());
    on("redo", () => this.redone());
    on("start-over", () => this.startOver());
    on("close-card", () => setMode("start"));
    on("to-route", () => setMode("route"));
    on("to-stops", () => setMode("stops"));
    for (const radio of document.querySelectorAll("input[name=click]")) {
      radio.addEventListener("change", () => this.showCard());
    }
  },

  /** The action of the route's card, with so many seconds between departures. */
  headwayAction(every) {
    return { do: "headway", route: this.chosen, every, from: clockIn("headway-from"), to: clockIn("headway-to") };
  },

  /** The action of the card of a new line. */
  lineAction() {
    const value = (name) => element(name).value, whole = (name) => Math.round(Number(value(name)));
    const pace = { stops: this.stops, speed: value("line-speed"), dwell: whole("line-dwell"), both: true };
    const hours = { first: clockIn("line-first"), last: clockIn("line-last"), every: 60 * whole("line-every") };
    return { do: "add_line", name: value("line-name"), ...pace, ...hours };
  },

  /** Shows the card of what is being changed. */
  showCard() {
    const mode = modeOf(), isRoute = mode === "route", isLine = mode === "stops";
    element("card").hidden = !isRoute && !isLine;
    element("route-card").hidden = !isRoute;
    element("line-card").hidden = !isLine;
    element("extend").hidden = this.chosen < 0;
    this.placeCard();
    element("search-label").textContent = { end: "To", stops: "Stop" }[mode] ?? "From";
    for (const name of ["forget-stops", "add-line", "extend"]) {
      element(name).disabled = this.stops.length === 0;
    }
    this.page.drawing.draw();
    show();
  },

  /** Puts the card into the corner of the map where it covers the fewest places. */
  placeCard() {
    const { x: wide, y: high } = this.page.map.getSize(), { offsetWidth: broad, offsetHeight: tall } = element("card");
    const own = new Set([state.place, ...(this.all[this.chosen]?.pairs ?? []), ...this.stops]);
    const corners = [["left", "bottom"], ["right", "bottom"], ["left", "top"], ["right", "top"]];
    const covered = corners.map(([side, end]) => {
      const left = side === "left" ? CARD : wide - broad - CARD, top = end === "top" ? BELOW_TOOLS : high - tall - CARD;
      return head.names.reduce((count, _, place) => {
        const at = isPlaced(place) ? this.page.pixelOf(place) : { x: -1, y: -1 };
        const isUnder = at.x >= left && at.x <= left + broad && at.y >= top && at.y <= top + tall;
        return count + (isUnder ? 1 + OWN * Number(own.has(place)) : 0);
      }, 0);
    });
    element("card").dataset.corner = corners[covered.indexOf(Math.min(...covered))].join(" ");
  },

  /** Goes back to the network as it was. */
  startOver() {
    this.redo = [];
    return live.actions.length > 0 && this.change({ actions: [], walk: live.walk });
  },

  /** Takes up the changes of an address to which somebody went back, or that a link has. */
  returned() {
    if (this.wanted !== undefined) {
      const own = this.changing = this.changing.then(() => this.takeWanted(this.wanted));
      return own;
    }
    return undefined;
  },

  /** Finds the routes and stops of an address, which are known a little after the page begins. */
  async takeWanted({ actions: named, walk }) {
    await this.read_;
    const { actions, lost } = numberedActions(named, this.all, head.identifiers);
    if (JSON.stringify({ actions, walk }) !== JSON.stringify({ actions: live.actions, walk: live.walk })) {
      await this.changed({ actions, walk });
    }
    if (lost.length) {
      element("changing").textContent =
        `The link names ${lost.join(", ")}, which this feed does not have: such changes are left out.`;
    }
  },

  /** Half the seconds between departures one way, in the hours of the period. */
  halfOf() {
    const [begin, end] = ["headway-from", "headway-to"].map((name) => minutesOfClock(element(name).value));
    const { hours } = this.all[this.chosen];
    const count = hours.reduce((sum, it, hour) => sum + (60 * hour >= begin && 60 * hour < end ? it : 0), 0);
    return Math.max(60, Math.round((60 * (end - begin)) / Math.max(1, 2 * count)));
  },

  takes(place, event) {
    if (modeOf() === "stops") {
      this.keepStops([...this.stops, place]);
      return true;
    }
    return modeOf() === "route" && event !== undefined; // a search chooses where journeys begin
  },

  read(words) {
    try {
      const actions = JSON.parse(words.get("actions") ?? "null"), walk = Number(words.get("walk") ?? NaN);
      this.wanted = Array.isArray(actions) && Number.isInteger(walk) ? { actions, walk } : undefined;
    } catch {
      this.wanted = undefined;
    }
  },

  words() {
    const isReady = this.all.length > 0 || live.actions.length === 0;
    const actions = isReady ? namedActions(live.actions, this.all, head.identifiers) : this.wanted?.actions ?? [];
    return { walk: live.walk, actions: JSON.stringify(actions) };
  },

  controls() {
    if (modeOf() === "stops") {
      nameSearched("");
    }
  },

  show() {},

  clicked(event) {
    if (modeOf() === "route") {
      this.choose(this.routeAt(event.containerPoint));
    }
  },

  /** The route whose line is nearest to a pixel. */
  routeAt(pixel) {
    const { x, y, scale } = this.page.worldAt(pixel);
    let [found, least] = [-1, (NEAR_LINE / scale) ** 2];
    this.all.forEach(({ pairs }, route) => {
      for (let at = 0; at < pairs.length; at += 2) {
        const far = farFrom(x, y, this.page.points, pairs[at], pairs[at + 1]);
        if (far < least) {
          [found, least] = [route, far];
        }
      }
    });
    return found;
  },

  choose(route) {
    this.chosen = route;
    element("route-form").hidden = route < 0;
    element("route").value = route;
    if (route >= 0) {
      setMode("route");
      const { name, ways } = this.all[route], count = ways.reduce((sum, way) => sum + way.count, 0);
      element("route-told").textContent = `Route ${name}: ${told(count)} departures on ${dateTold(asked.date)}.`;
      fill("way", ...optionsOf(ways.map(({ stops, count: own }) =>
        `from ${nameOf(stops[0])} to ${nameOf(stops[stops.length - 1])} (${told(own)})`)));
      this.tellWay();
    }
    this.page.drawing.draw();
  },

  tellWay() {
    const { stops } = this.all[this.chosen].ways[Number(element("way").value)];
    fill("cut-at", ...stops.slice(1, -1).map((place) => made("option", nameOf(place), { value: place })));
  },

  keepStops(stops) {
    this.stops = stops;
    fill("stops", ...stops.map((place) => made("li", nameOf(place))));
    this.showCard();
  },

  add(action) {
    this.redo = [];
    return this.change({ actions: [...live.actions, action], walk: live.walk });
  },

  undo() {
    const last = live.actions[live.actions.length - 1];
    if (last !== undefined) {
      this.redo.push(last);
      return this.change({ actions: live.actions.slice(0, -1), walk: live.walk });
    }
  },

  redone() {
    const next = this.redo.pop();
    return next && this.change({ actions: [...live.actions, next], walk: live.walk });
  },

  /** Has the server begin another network; until it is there the one before answers. */
  change(wanted) {
    const own = this.changing = this.changing.then(() => this.changed(wanted));
    return own;
  },

  async changed(wanted) {
    document.body.dataset.busy = "1";
    const last = wanted.actions[wanted.actions.length - 1];
    const text = last === undefined ? "the network as it was" : this.actionTold(last);
    element("changing").textContent = `${text} – computing`;
    notice(`${text} – computing`);
    const found = await answerOf("changes", {}, { ...wanted, tab: live.tab }).then((it) => it.json())
      .catch((fault) => { toldAtField(fault, wanted.actions[wanted.actions.length - 1]) || tellFault(fault); });
    document.body.dataset.busy = "0";
    element("changing").textContent = "";
    notice("");
    if (found !== undefined) {
      tellFault(null);
      this.take(wanted, found);
      await show();
    }
    element("walk").value = live.walk;
    sliders.tellValues(live.walk);
  },

  take(wanted, { version, scenarios, told: lines, lines: drawn }) {
    Object.assign(live, { ...wanted, version });
    head.scenarios = scenarios;
    drawn.forEach((of, scenario) => {
      for (const name of CHANGED_LINES) {
        numbers[`${name}-${scenario}`] = Int32Array.from(of[name]);
      }
    });
    const scenario = scenarios.length - 1;
    Object.assign(state, { scenario, difference: scenario > 0 });
    fillControls();
    clearErrors();
    this.keepStops([]);
    this.tellChanges(lines);
  },

  tellChanges(lines) {
    fill("changes", ...live.actions.map((action) => made("li", this.actionTold(action))));
    fill("changes-told", ...lines.map((it) => made("li", it)));
    element("undo").disabled = live.actions.length === 0;
    element("redo").disabled = this.redo.length === 0;
    element("start-over").disabled = live.actions.length === 0;
    element("changes-detail").hidden = lines.length === 0;
  },

  actionTold(action) {
    const route = () => `route ${this.all[action.route]?.name ?? action.route}`, minutes = told(action.every / 60);
    return {
      remove_route: () => `remove ${route()}`,
      headway: () => `${route()} every ${minutes} minutes from ${action.from} to ${action.to}`,
      speed: () => `${route()} faster by ${told(100 * (1 - action.factor))} %`,
      cut: () => `${route()} ends at ${nameOf(action.after)}`,
      extend: () => `${route()} extended to ${action.stops.map(nameOf).join(", ")}`,
      add_line: () => `new line ${action.name}: ${action.stops.map(nameOf).join(", ")}, every ${minutes} minutes`,
    }[action.do]();
  },

  /** Pieces between places as a kind of line. */
  paintLines(pen, view, pairs, how) {
    pen.beginPath();
    for (let at = 0; at < pairs.length; at += 2) {
      pen.moveTo(...this.page.at(pairs[at], view));
      pen.lineTo(...this.page.at(pairs[at + 1], view));
    }
    strokeAs(pen, how);
  },

  /** The route that is being changed. */
  paintChosen(pen, view) {
    if (this.chosen >= 0 && !element("card").hidden) {
      this.paintLines(pen, view, this.all[this.chosen].pairs, table.lines.selected);
    }
  },

  /** The stops that are chosen for a line. */
  paintStops(pen, view) {
    if (modeOf() !== "stops") {
      return;
    }
    const pairs = this.stops.slice(1).flatMap((place, at) => [this.stops[at], place]);
    const mark = { colour: table.tokens.added, shape: "circle" };
    this.paintLines(pen, view, pairs, table.lines.added);
    this.stops.forEach((place) => paintMark(pen, mark, ...this.page.at(place, view), 6));
  },
};

additions.push(routes);
