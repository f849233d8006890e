// The map: Leaflet, with a canvas for the lines, which change where the map is moved alone, one for the places over it,
// and what lies where.

import { CHANGED_LINES } from "../core/constants.js";
import { oppositePairs, overlapping } from "../core/opposite.js";
import { table } from "../core/table.js";
import { Areas } from "./areas.js";
import { Drawing } from "./drawing.js";
import { GroundLayer } from "./ground.js";
import { LEAST_SQUARE, colourOfCell, paintCell, paintSmall, paintStar, paintWithin, strokeAs } from "./marks.js";
import { paintNames } from "./names.js";
import { onWorld } from "./projection.js";
import { stamps } from "./stamps.js";
import { head, isPlaced, numbers } from "../page/data.js";

const ABOVE = 64; // pixels at the top that the tools take
const REACH = 22; // pixels from a place at which a click still takes it
const MOST_RADIUS = 5; // pixels, of an ordinary mark where all places are shown
const DEGREE = 111195; // metres of latitude
const MANY_LINES = 2000; // pieces of lines from which on they are thin and faint
const CROSS_EVERY = 34, CROSS_FROM_PLACE = 10; // pixels: between crosses of a removed line, and from a place to a cross
/** The map of the page. `draw()` shows what `shown` says; `chosen(place)` is called where one is clicked on. */
export class PageMap {
  constructor(chosen, tipOf, identifier = "map") {
    this.points = onWorld(numbers.places);
    this.areas = new Areas();
    this.top = document.getElementById("tools") === null ? 18 : ABOVE;
    this.many = 2000; // marks in the picture, from which on they are stamped
    this.hasSquares = this.areas.any || numbers.widths.some((width) => width > 0);
    this.pairs = oppositePairs(head.names, numbers.places, this.stops());
    this.leftOut = new Uint8Array(head.names.length); // places whose mark the opposite stop has, too
    this.sharing = (_count) => {}; // with the number of pairs that share a mark, whenever places are painted
    this.lines = {}; // on the world, and of which numbers
    this.ground = head.ground === null ? null : new GroundLayer(numbers.ground);
    this.under = []; // what additions paint below the places, and
    this.part = "all"; // of places that is painted: all, the fills of cells, or the marks in them and of stops
    this.areasUnder = []; // areas that additions paint below all of these: each says whether it paints any
    this.over = []; // above them
    this.nowhere = (/** @type {any} */ _event) => {}; // where a click is near no place
    this.shown = { classes: null, marks: [table.marks.unknown], place: -1, scenario: 0 };
    this.map = L.map(identifier, { zoomControl: false, zoomSnap: 0.25, wheelPxPerZoomLevel: 90, zoomAnimation: false,
      fadeAnimation: false, trackResize: false, attributionControl: head.tiles !== null, maxZoom: 19, minZoom: 2,
      finest: 1 });
    L.control.zoom({ position: "topright" }).addTo(this.map);
    L.control.scale({ imperial: false, position: "bottomright" }).addTo(this.map);
    this.addNorth();
    if (head.tiles !== null) {
      this.addTiles();
    }
    this.fit();
    this.lower = new Drawing("lines", (pen, view) => this.paintLower(pen, view)).addTo(this.map);
    this.drawing = new Drawing("places", (pen, view) => this.paint(pen, view)).addTo(this.map);
    this.map.on("click", (event) => {
      const place = this.placeAt(event.containerPoint);
      if (place >= 0) {
        chosen(place, event);
      } else {
        this.nowhere(event);
      }
    });
    this.addTip(tipOf);
    this.isMoved = false; // since it last showed all places
    this.map.on("moveend", () => { this.isMoved = true; });
  }

  /** The places that have a mark and neither a cell nor an area. */
  stops() {
    return Array.from(head.names.keys()).filter((place) => isPlaced(place) && numbers.widths[place] === 0
      && !(this.areas.any && this.areas.has(place)));
  }

  addNorth() {
    const north = L.control({ position: "topright" });
    north.onAdd = () => {
      const made = L.DomUtil.create("div", "north");
      made.textContent = "↑ N";
      made.title = "North is up";
      return made;
    };
    north.addTo(this.map);
  }

  addTiles() {
    this.map.attributionControl.setPrefix(false);
    const text = document.createElement("span");
    text.textContent = head.tiles.attribution;
    L.tileLayer(head.tiles.url, { attribution: text.innerHTML, maxZoom: 19, opacity: 0.55 }).addTo(this.map);
  }

  addTip(tipOf) {
    const tip = document.getElementById("tip");
    let pointed = -1; // the place under the pointer
    this.renewTip = () => {
      if (pointed >= 0) {
        tip.textContent = tipOf(pointed);
      }
    };
    this.map.on("mousemove", (event) => {
      const place = pointed = this.placeAt(event.containerPoint);
      tip.hidden = place < 0;
      this.map.getContainer().style.cursor = place < 0 ? "" : "pointer";
      if (place >= 0) {
        tip.textContent = tipOf(place);
        const left = Math.min(event.originalEvent.clientX + 14, window.innerWidth - tip.offsetWidth - 4);
        tip.style.left = `${Math.max(4, left)}px`;
        tip.style.top = `${event.originalEvent.clientY + 16}px`;
      }
    });
    this.map.on("mouseout", () => {
      pointed = -1;
      tip.hidden = true;
    });
  }

  /** Shows all places. */
  fit() {
    let [west, east, south, north] = [Infinity, -Infinity, Infinity, -Infinity];
    for (let place = 0; place < head.names.length; place++) {
      if (isPlaced(place)) {
        const latitude = numbers.places[2 * place] / 1e6, longitude = numbers.places[2 * place + 1] / 1e6;
        const half = numbers.heights[place] / 2 / DEGREE;
        const wide = numbers.widths[place] / 2 / DEGREE / Math.cos((latitude * Math.PI) / 180);
        [west, east] = [Math.min(west, longitude - wide), Math.max(east, longitude + wide)];
        [south, north] = [Math.min(south, latitude - half), Math.max(north, latitude + half)];
      }
    }
    for (const [left, top, right, bottom] of this.areas.boxes.values()) {
      const ends = [L.point(left, bottom), L.point(right, top)];
      const [low, high] = ends.map((end) => L.CRS.EPSG3857.pointToLatLng(end, 0));
      [west, east] = [Math.min(west, low.lng), Math.max(east, high.lng)];
      [south, north] = [Math.min(south, low.lat), Math.max(north, high.lat)];
    }
    this.map.fitBounds([[south, west], [north, east]], { paddingTopLeft: [18, this.top], paddingBottomRight: [18, 24],
      maxZoom: 16, animate: false });
    this.fitZoom = this.map.getZoom();
    this.isMoved = false;
  }

  /** Brings a place into the map where it is outside. */
  bring(place) {
    if (isPlaced(place)) {
      const at = L.latLng(numbers.places[2 * place] / 1e6, numbers.places[2 * place + 1] / 1e6);
      if (!this.map.getBounds().pad(-0.05).contains(at)) {
        this.map.panTo(at, { animate: false });
      }
    }
  }

  show(shown) {
    this.shown = shown;
    this.drawing.draw();
  }

  /** Where a place lies in the map's own pixels. */
  pixelOf(place) {
    const scale = 2 ** this.map.getZoom();
    const origin = this.map.getPixelOrigin().add(this.map.containerPointToLayerPoint(L.point(0, 0)));
    return L.point(this.points[2 * place] * scale - origin.x, this.points[2 * place + 1] * scale - origin.y);
  }

  /** Where a pixel lies on the map of zoom 0, and how many pixels the map now has for one of that map. */
  worldAt(pixel) {
    const scale = 2 ** this.map.getZoom();
    const origin = this.map.getPixelOrigin().add(this.map.containerPointToLayerPoint(L.point(0, 0)));
    return { x: (pixel.x + origin.x) / scale, y: (pixel.y + origin.y) / scale, scale };
  }

  /** The place at a pixel: the nearest mark within reach, or the square or area in which it is; else the area whose
   * middle is the nearest within reach; -1 where there is none.
   */
  placeAt(pixel) {
    const { x, y, scale } = this.worldAt(pixel);
    const mark = this.nearest(x, y, scale, false);
    const area = mark < 0 && this.areas.any ? this.areas.at(x, y) : mark;
    return area < 0 && this.areas.any ? this.nearest(x, y, scale, true) : area;
  }

  /** The place nearest to a point of the map, within reach, among the areas or the others. */
  nearest(x, y, scale, amongAreas) {
    let found = -1, least = (REACH / scale) ** 2;
    for (let place = 0; place < head.names.length; place++) {
      if (this.leftOut[place] || (this.areas.any && this.areas.has(place) !== amongAreas)) {
        continue;
      }
      const east = this.points[2 * place] - x, south = this.points[2 * place + 1] - y;
      const far = east * east + south * south;
      if (far < least || (found < 0 && numbers.widths[place] > 0 && this.isInCell(place, east, south))) {
        found = place;
        least = Math.min(far, least);
      }
    }
    return found;
  }

  /** Whether a point so far east and south of a place is in its cell. */
  isInCell(place, east, south) {
    return Math.abs(east) <= this.sideOf(place) / 2 && Math.abs(south) <= this.sideOf(place, numbers.heights) / 2;
  }

  /** How wide a place's cell is, or by its heights how high, on the map of zoom 0. */
  sideOf(place, sides = numbers.widths) {
    const latitude = (numbers.places[2 * place] / 1e6) * (Math.PI / 180);
    return (sides[place] * 256) / (2 * Math.PI * L.CRS.EPSG3857.R * Math.cos(latitude));
  }

  /** What does not change when a place is chosen. */
  paintLower(pen, view) {
    if (this.ground !== null) {
      this.ground.paintUnder(pen, view);
      this.paintUpperGround(pen, view);
    }
    this.paintLines(pen, view, "running");
  }

  /** The part of the ground that lies above areas, with its names. */
  paintUpperGround(pen, view) {
    this.ground.paintOver(pen, view);
    const spots = Array.from(this.points, (at, place) => at * view.scale - (place % 2 ? view.y : view.x));
    paintNames(pen, view, this.ground.names, this.hasSquares ? [] : spots);
  }

  /** Finds the opposite stops that share a mark at this zoom. */
  shareMarks({ scale }) {
    const shared = overlapping(this.pairs, this.points, (2 * this.radius()) / scale, this.shown);
    this.leftOut.fill(0);
    shared.forEach(([, other]) => { this.leftOut[other] = 1; });
    this.sharing(shared.length);
  }

  paint(pen, view) {
    this.shareMarks(view);
    const areas = this.areasUnder.filter(({ isOn }) => isOn()), hasAreas = areas.length > 0 || this.hasSquares;
    if (this.ground !== null && hasAreas) {
      this.paintWithAreas(pen, view, areas);
    } else {
      if (this.map.options.finest > 1) {
        this.paintLower(pen, view); // on paper browsers may leave out a canvas that lies below another one
      }
      areas.forEach((area) => area.paint(pen, view));
    }
    this.under.forEach((paint) => paint(pen, view));
    if (!this.hasSquares) {
      this.paintChanges(pen, view);
    }
    this.part = this.ground === null || !this.hasSquares ? "all" : "marks";
    this.paintPlaces(pen, view);
    if (this.hasSquares) {
      this.paintChanges(pen, view);
    }
    this.over.forEach((paint) => paint(pen, view));
    if (this.shown.place >= 0 && isPlaced(this.shown.place)) {
      paintStar(pen, ...this.at(this.shown.place, view));
    }
  }

  /** The ground with areas and cells on it, which streets show through and which end at water and parks. */
  paintWithAreas(pen, view, areas) {
    pen.fillStyle = table.tokens.land;
    pen.fillRect(0, 0, view.width, view.height);
    this.ground.paintUnder(pen, view);
    pen.globalCompositeOperation = "multiply";
    areas.forEach((area) => area.paint(pen, view));
    if (this.hasSquares) {
      this.part = "fills";
      this.paintPlaces(pen, view);
    }
    pen.globalCompositeOperation = "source-over";
    this.ground.paintEdges(pen, view);
    this.paintUpperGround(pen, view);
    this.paintLines(pen, view, "running");
  }

  paintChanges(pen, view) {
    if (this.shown.scenario > 0) {
      for (const name of CHANGED_LINES) {
        this.paintLines(pen, view, `${name}-${this.shown.scenario}`);
      }
    }
  }

  paintLines(pen, view, name) {
    const how = table.lines[name.split("-")[0]];
    if (this.lines[name]?.from !== numbers[name]) {
      this.lines[name] = { from: numbers[name], ends: onWorld(numbers[name]) };
    }
    const { ends } = this.lines[name];
    pen.beginPath();
    for (let place = 0; place < ends.length; place += 4) {
      pen.moveTo(ends[place] * view.scale - view.x, ends[place + 1] * view.scale - view.y);
      pen.lineTo(ends[place + 2] * view.scale - view.x, ends[place + 3] * view.scale - view.y);
    }
    const many = name === "running" && ends.length > 4 * MANY_LINES; // a city's lines would hide its places
    strokeAs(pen, many ? { ...how, width: how.width / 2, colour: table.tokens["route-faint"] } : how);
    if (how.crosses) {
      this.paintCrosses(pen, view, ends, how);
    }
  }

  /** Small crosses along removed lines: in the middle of pieces, away from places and from one another. */
  paintCrosses(pen, view, ends, how) {
    const taken = new Set(), cell = (x, y, wide) => `${Math.floor(x / wide)} ${Math.floor(y / wide)}`;
    const places = new Map(), half = how.crosses / 2, near = CROSS_FROM_PLACE;
    for (let place = 0; place < head.names.length; place++) {
      const at = this.at(place, view), key = cell(at[0], at[1], near);
      places.set(key, [...(places.get(key) ?? []), at]);
    }
    const isFree = (x, y) => [-near, 0, near].every((east) => [-near, 0, near].every((south) =>
      (places.get(cell(x + east, y + south, near)) ?? [])
        .every(([left, top]) => Math.hypot(left - x, top - y) >= near)));
    pen.beginPath();
    for (let place = 0; place < ends.length; place += 4) {
      const x = ((ends[place] + ends[place + 2]) / 2) * view.scale - view.x;
      const y = ((ends[place + 1] + ends[place + 3]) / 2) * view.scale - view.y, own = cell(x, y, CROSS_EVERY);
      if (!taken.has(own) && isFree(x, y)) {
        taken.add(own);
        pen.moveTo(x - half, y - half);
        pen.lineTo(x + half, y + half);
        pen.moveTo(x - half, y + half);
        pen.lineTo(x + half, y - half);
      }
    }
    strokeAs(pen, { colour: how.colour, width: 1.8, dash: [], casing: 4 });
  }

  /** @returns {[number, number]} */
  at(place, view) {
    return [this.points[2 * place] * view.scale - view.x, this.points[2 * place + 1] * view.scale - view.y];
  }

  /** All places: small marks first, and what is cut off on top. */
  paintPlaces(pen, view) {
    const { classes, marks } = this.shown, { points, areas } = this;
    const order = marks.map((mark, number) => number).sort((a, b) => marks[a].size - marks[b].size || b - a);
    const groups = marks.map(() => []), { scale, width, height } = view;
    let count = 0;
    for (let place = 0; place < head.names.length; place++) {
      const x = points[2 * place] * scale - view.x, y = points[2 * place + 1] * scale - view.y;
      const isNear = x > -40 && y > -40 && x < width + 40 && y < height + 40;
      if (this.leftOut[place]) {
        continue;
      }
      if (isNear || (areas.any && areas.has(place) && areas.isSeen(place, view))) {
        groups[classes === null ? 0 : classes[place]].push(place);
        count++;
      }
    }
    const inOrder = order.map((number) => ({ mark: marks[number], some: groups[number], radius: this.radius() }));
    if (count >= this.many && !this.hasSquares && stamps.takes(this.radius())) {
      this.stampPlaces(pen, view, inOrder);
    } else {
      inOrder.forEach((group) => this.paintClass(pen, view, group));
    }
  }

  /** Many places, by stamps. */
  stampPlaces(pen, view, inOrder) {
    stamps.begin(pen);
    for (const { mark, some, radius } of inOrder.filter((group) => group.some.length)) {
      stamps.press(stamps.of(mark, radius), some, this.points, view);
    }
    stamps.paint(pen);
  }

  /** The places of a class: their areas, their squares, or their marks. */
  paintClass(pen, view, { mark, some, radius }) {
    for (const place of some) {
      const x = this.points[2 * place] * view.scale - view.x, y = this.points[2 * place + 1] * view.scale - view.y;
      if (this.areas.any && this.areas.has(place)) {
        if (mark.shape !== "ring" && this.part !== "marks") {
          this.areas.paint(pen, view, place, colourOfCell(mark));
        }
        if (this.part !== "fills") {
          paintWithin(pen, mark, x, y, this.areas.sizeOf(place, view));
        }
      } else if (numbers.widths[place] > 0) {
        const sides = [this.sideOf(place), this.sideOf(place, numbers.heights)];
        paintCell(pen, mark, x, y, sides.map((side) => Math.max(side * view.scale, LEAST_SQUARE)), this.part);
      } else if (this.part !== "fills") {
        paintSmall(pen, mark, x, y, radius);
      }
    }
  }

  /** The radius of an ordinary mark, so that marks don't hide one another where all places are shown. */
  radius() {
    const size = this.map.getSize(), count = Math.max(1, head.names.length);
    const at = Math.min(MOST_RADIUS, Math.max(1.6, 0.2 * Math.sqrt((size.x * size.y) / count)));
    return Math.min(10, at * 1.35 ** Math.max(0, this.map.getZoom() - this.fitZoom));
  }
}
