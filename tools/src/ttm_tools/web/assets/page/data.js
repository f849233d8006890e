// The numbers of the page; the comment above them in the page says how they are written.

import { CHANGED_LINES, NOWHERE } from "../core/constants.js";
import { useTable } from "../core/table.js";

useTable(JSON.parse(document.getElementById("classes").textContent));

export const head = JSON.parse(document.getElementById("head").textContent);
export const additions = []; // what a page with a live source adds: see live.js of `explore`
/** The bytes of a part of the page. */
export async function inflated(name) {
  const element = document.getElementById(name);
  const text = atob(element.textContent);
  const packed = new Uint8Array(text.length);
  for (let place = 0; place < text.length; place++) {
    packed[place] = text.charCodeAt(place);
  }
  const stream = new Blob([packed]).stream().pipeThrough(new DecompressionStream("deflate"));
  return new Response(stream).arrayBuffer();
}

export const numbers = {}; // what `readNumbers` has read, by the names of the parts
/** Reads all that is shown before a place is chosen. */
export async function readNumbers() {
  const kinds = { places: Int32Array, widths: Float32Array, heights: Float32Array, counts: Float64Array,
    running: Int32Array };
  for (const name of ["columns", "origins", "rows", "area-rings", "area-corners"]) {
    kinds[name] = Int32Array;
  }
  for (let scenario = 0; scenario < head.scenarios.length; scenario++) {
    for (const name of CHANGED_LINES) {
      kinds[`${name}-${scenario}`] = Int32Array;
    }
    for (let share = 0; head.measures.length > 0 && share < head.shares.length; share++) {
      kinds[`access-${scenario}-${share}`] = Float64Array;
    }
  }
  if (head.ground !== null) {
    numbers.ground = await inflated("ground");
  }
  await Promise.all(Object.entries(kinds).map(async ([name, Kind]) => {
    numbers[name] = new Kind(await inflated(name));
  }));
  for (const name of ["origins", "rows"]) {
    const places = new Int32Array(head.names.length).fill(-1);
    numbers[name].forEach((place, number) => { places[place] = number; });
    numbers[`${name}At`] = places; // the number of each place among them, -1 where it isn't
  }
}

/** Access from each origin, by a measure's number. */
export function accessOf(scenario, share, measure) {
  const begin = measure * head.origins;
  return numbers[`access-${scenario}-${share}`].subarray(begin, begin + head.origins);
}

/** A column of counts, a number for each place. */
export function countsOf(number) {
  return numbers.counts.subarray(number * head.names.length, (number + 1) * head.names.length);
}

export function isPlaced(place) {
  return numbers.places[2 * place] !== NOWHERE;
}

/** A place's name, with its identifier where they differ; behind all places that of any point of the map. */
export function nameOf(place) {
  if (place === head.names.length) {
    return head.point;
  }
  const name = head.names[place], identifier = head.identifiers[place];
  return name === identifier ? name : `${name} (${identifier})`;
}
