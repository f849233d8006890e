// Distances, and whether a point is inside a ring.

/** Whether a point lies within rings: those that a line from it to the east crosses are odd in number. */
export function isWithin(rings, x, y) {
  let within = false;
  for (const ring of rings) {
    for (let corner = 0; corner < ring.length; corner += 2) {
      const next = (corner + 2) % ring.length;
      const [ax, ay, bx, by] = [ring[corner], ring[corner + 1], ring[next], ring[next + 1]];
      if (ay > y !== by > y && x < ax + ((y - ay) / (by - ay)) * (bx - ax)) {
        within = !within;
      }
    }
  }
  return within;
}

/** How far a point is from a line between two places, squared. */
export function farFrom(x, y, points, one, other) {
  const east = points[2 * other] - points[2 * one], south = points[2 * other + 1] - points[2 * one + 1];
  const right = x - points[2 * one], down = y - points[2 * one + 1], length = east * east + south * south;
  const part = length === 0 ? 0 : Math.min(1, Math.max(0, (right * east + down * south) / length));
  return (right - part * east) ** 2 + (down - part * south) ** 2;
}

const EARTH = 6371008.8; // metres
/** How far two nodes are apart, in metres. */
export function metresBetween(nodes, one, other) {
  const degree = (Math.PI * EARTH) / 180e6, middle = ((nodes[2 * one] + nodes[2 * other]) / 2e6) * (Math.PI / 180);
  const north = (nodes[2 * other] - nodes[2 * one]) * degree;
  const east = (nodes[2 * other + 1] - nodes[2 * one + 1]) * degree;
  return Math.hypot(north, east * Math.cos(middle));
}
