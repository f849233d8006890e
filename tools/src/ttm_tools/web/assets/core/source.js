// Where travel times come from: the page itself, or a server.

/** Travel times from a place in minutes, by place, scenario and share: a number for each column, or null for none. */
export let minutesFrom = /** @type {(place: number, scenario: number, share: number) => Promise<Uint8Array | null>} */ (
  async () => null);

/** Takes a function as the source. */
export function setSource(found) {
  minutesFrom = found;
}
