// Areas that are reached within bands of minutes: cells whole, and from stops on by walking for the time that is left.

import { colours } from "../core/classes.js";
import { classEnds } from "../core/table.js";
import { head, isPlaced, numbers } from "../page/data.js";
import { state } from "../ui/state.js";

const AREA = 0.65; // opacity
/** Paints the areas that are reached, below the places. */
export class ReachedAreas {
  /** `start` gives the place where journeys begin if it is none of the columns, else -1. */
  constructor(page, start = () => -1) {
    this.page = page;
    this.start = start;
    this.scratch = document.createElement("canvas");
    this.painted = {}; // what the areas are of that it shows
  }

  /** The area within the slider's minutes, and those of the bands that end before; the widest first. */
  ends() {
    const bands = classEnds.map((end, number) => ({ end, number })).filter(({ end }) => end < state.minutes);
    return [...bands, { end: state.minutes, number: bands.length }].reverse();
  }

  /** Paints these areas, with a maximum walk in seconds. */
  paint(pen, view, cells, walk) {
    const ends = this.ends();
    const { width, height } = pen.canvas, words = [cells.byteOffset, width, height, view, walk, ends, this.start()];
    const of = { cells: cells.buffer, places: numbers.places, text: JSON.stringify([...words, classEnds.length]) };
    if (Object.entries(of).some(([name, it]) => this.painted[name] !== it)) {
      this.painted = of;
      Object.assign(this.scratch, { width, height });
      this.paintBands(this.scratch.getContext("2d"), view, cells, walk, ends);
    }
    pen.globalAlpha = AREA;
    pen.drawImage(this.scratch, 0, 0, view.width, view.height);
    pen.globalAlpha = 1;
  }

  paintBands(area, view, cells, walk, ends) {
    const fine = area.canvas.width / view.width, shades = colours(classEnds.length + 1);
    area.scale(fine, fine);
    for (const [place, { number }] of ends.entries()) {
      area.fillStyle = area.strokeStyle = shades[number];
      this.paintBand(area, view, cells, walk, ends, place);
    }
  }

  /** Paints the area of one of the bands: a circle round each place. */
  paintBand(area, view, cells, walk, ends, number) {
    const { end } = ends[number];
    area.beginPath();
    cells.forEach((minutes, column) => {
      if (minutes <= end && isPlaced(numbers.columns[column])) {
        this.add(area, view, numbers.columns[column], Math.min(60 * (end - minutes), walk));
      }
    });
    if (this.start() >= 0) {
      this.add(area, view, this.start(), Math.min(60 * end, walk));
    }
    area.fill();
  }

  /** Adds what is reached from a place where some seconds are left; cells are painted as places. */
  add(area, view, place, left) {
    if (left <= 0 || numbers.widths[place] > 0 || this.page.areas.has(place)) {
      return;
    }
    const [x, y] = this.page.at(place, view), latitude = (numbers.places[2 * place] / 1e6) * (Math.PI / 180);
    const wide = (left * head.pace * 256 * view.scale) / (2 * Math.PI * L.CRS.EPSG3857.R * Math.cos(latitude));
    if (x > -wide && y > -wide && x < view.width + wide && y < view.height + wide) {
      area.moveTo(x + wide, y);
      area.arc(x, y, wide, 0, 2 * Math.PI);
    }
  }
}
