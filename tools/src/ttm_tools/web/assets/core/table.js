// Breaks, labels, colours, shapes and line styles, which pictures have, too.

/** The table of classes, as views/assets/classes.json has it; empty until `useTable`. */
export const table = /** @type {any} */ ({});

/** Where classes of travel times end, in minutes. */
export const classEnds = /** @type {number[]} */ ([]);

/** Takes other minutes as the ends of classes of travel times. */
export function setClassEnds(ends) {
  classEnds.splice(0, classEnds.length, ...ends);
}

/** Takes a table that was read. */
export function useTable(read) {
  Object.assign(table, read);
  setClassEnds(read.breaks.minutes);
}
