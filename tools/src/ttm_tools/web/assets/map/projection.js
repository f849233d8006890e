// Degrees as places on the map.

import { NOWHERE } from "../core/constants.js";

/** Degrees as places on the map of zoom 0, where the world is 256 wide; NaN where there is none. */
export function onWorld(degrees) {
  const made = new Float64Array(degrees.length);
  for (let place = 0; place < degrees.length; place += 2) {
    if (degrees[place] === NOWHERE) {
      made[place] = made[place + 1] = NaN;
    } else {
      const point = L.CRS.EPSG3857.latLngToPoint(L.latLng(degrees[place] / 1e6, degrees[place + 1] / 1e6), 0);
      made[place] = point.x;
      made[place + 1] = point.y;
    }
  }
  return made;
}
