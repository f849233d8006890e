// Elements of the document. All text is set as text.

export const NARROW = window.matchMedia("(max-width: 760px)"); // whether the page is as narrow as a phone

/** The element with an identifier.
 * @param {string} identifier
 * @returns {any}
 */
export function element(identifier) {
  return document.getElementById(identifier);
}

/** An element with a text, or with other elements in it.
 * @param {string} name
 * @param {any} content
 * @param {Record<string, any>} attributes
 * @returns {any}
 */
export function made(name, content = "", attributes = {}) {
  const element = document.createElement(name);
  if (Array.isArray(content)) {
    element.append(...content);
  } else {
    element.textContent = content;
  }
  for (const [attribute, value] of Object.entries(attributes)) {
    element.setAttribute(attribute, value);
  }
  return element;
}

/** A line of a table: a head, then cells. */
export function line(head, cells) {
  return made("tr", [made("th", head, { scope: "row" }), ...cells.map((cell) => made("td", cell))]);
}

/** The line of a table that names its columns. */
export function heads(...names) {
  return made("tr", names.map((name) => made("th", name, { scope: "col" })));
}

export function fill(identifier, ...lines) {
  element(identifier).replaceChildren(...lines);
}

/** Options of a list, with their numbers as values. */
export function optionsOf(names) {
  return names.map((name, number) => made("option", name, { value: number }));
}

const SVG = "http://www.w3.org/2000/svg";

export function shape(name, attributes, text) {
  const made = document.createElementNS(SVG, name);
  for (const [attribute, value] of Object.entries(attributes)) {
    made.setAttribute(attribute, value);
  }
  if (text !== undefined) {
    made.textContent = text;
  }
  return made;
}
