// Changes of the network in an address: by route_ids and stop_ids, so that a link holds after a restart, and for
// another feed with the same routes.

/** @typedef {{ id: string, ways: { stops: number[] }[] }} NamedRoute */

/** A way of a route by the stop_ids of its ends and the number of its stops. */
function wayNamed({ stops }, identifiers) {
  return [identifiers[stops[0]], identifiers[stops[stops.length - 1]], stops.length];
}

/** Actions with identifiers for the numbers of routes, ways and stops.
 * @param {any[]} actions
 * @param {NamedRoute[]} routes
 * @param {string[]} identifiers
 */
export function namedActions(actions, routes, identifiers) {
  return actions.map((action) => {
    const named = { ...action }, route = routes[action.route];
    if ("way" in action) {
      named.way = wayNamed(route.ways[action.way], identifiers);
    }
    if ("route" in action) {
      named.route = route.id;
    }
    if ("after" in action) {
      named.after = identifiers[action.after];
    }
    if ("stops" in action) {
      named.stops = action.stops.map((place) => identifiers[place]);
    }
    return named;
  });
}

/** Actions with numbers for identifiers again, and the identifiers that this feed does not have. An action with one of
 * these is left out.
 * @param {any[]} named
 * @param {NamedRoute[]} routes
 * @param {string[]} identifiers
 */
export function numberedActions(named, routes, identifiers) {
  const lost = /** @type {string[]} */ ([]), stopNumbers = new Map(identifiers.map((name, place) => [name, place]));
  const numberOf = (value, find) => {
    const found = typeof value === "number" ? value : find(value); // links of earlier versions have numbers
    if (found < 0) {
      lost.push(String(value));
    }
    return found;
  };
  const stop = (value) => numberOf(value, (it) => stopNumbers.get(it) ?? -1);
  const actions = named.flatMap((action) => {
    const before = lost.length, found = { ...action };
    if ("route" in action) {
      found.route = numberOf(action.route, (it) => routes.findIndex(({ id }) => id === it));
    }
    if ("way" in action && found.route >= 0) {
      const same = (way) => JSON.stringify(wayNamed(way, identifiers)) === JSON.stringify(action.way);
      found.way = numberOf(action.way, () => routes[found.route].ways.findIndex(same));
    }
    if ("after" in action) {
      found.after = stop(action.after);
    }
    if ("stops" in action) {
      found.stops = action.stops.map(stop);
    }
    return lost.length === before ? [found] : [];
  });
  return { actions, lost };
}
