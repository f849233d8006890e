// Numbers with a meaning of their own in the cells of a page.

export const LATER = 254; // a cell of more than 253 minutes
export const NEVER = 255; // a cell that isn't reached
export const NOWHERE = 2147483647; // a latitude of a place without one
export const CHANGED_LINES = ["taken", "changed", "added"]; // kinds of lines that differ in a scenario from the base
