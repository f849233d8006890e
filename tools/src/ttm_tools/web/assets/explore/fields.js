// Errors at the field that has them.

import { element, made } from "../ui/elements.js";

const CLOCK = /^([01]?\d|2[0-3]):[0-5]\d$/;
// what the server calls a value of a change, and the field that has it, by the kind of the change
const FIELDS = {
  headway: { every: "headway-every", from: "headway-from", to: "headway-to" },
  speed: { factor: "faster" },
  extend: { speed: "line-speed", dwell: "line-dwell" },
  add_line: { name: "line-name", speed: "line-speed", dwell: "line-dwell", first: "line-first", last: "line-last",
    every: "line-every" },
};

/** Takes errors away from all fields. */
export function clearErrors() {
  document.querySelectorAll(".field-error").forEach((it) => it.remove());
  document.querySelectorAll("[aria-invalid]").forEach((it) => it.removeAttribute("aria-invalid"));
}

/** Shows an error at a field, which gets the focus. */
function tellError(name, text) {
  const field = element(name);
  field.setAttribute("aria-invalid", "true");
  field.setAttribute("aria-describedby", `${name}-error`);
  for (let folded = field.closest("details"); folded !== null; folded = folded.parentElement.closest("details")) {
    folded.open = true;
  }
  field.closest("label").after(made("span", text, { class: "field-error", id: `${name}-error`, role: "alert" }));
  field.focus();
}

/** What is wrong with a field; nothing where it is right. */
function faultOf(field) {
  if (field.classList.contains("clock")) {
    return CLOCK.test(field.value) ? "" : `${field.value || "nothing"} is no time: write HH:MM, such as 06:30`;
  }
  if (field.type === "number") {
    const number = Number(field.value), isWhole = field.value !== "" && Number.isInteger(number);
    const isInside = isWhole && number >= Number(field.min) && number <= Number(field.max);
    return isInside ? "" : `${field.value || "nothing"}: allowed are whole numbers from ${field.min} to ${field.max}`;
  }
  return field.value === "" ? "write something here" : "";
}

/** Whether all of some fields are right; the first that is not says what is wrong. */
export function areRight(...names) {
  clearErrors();
  const wrong = names.find((name) => faultOf(element(name)) !== "");
  if (wrong !== undefined) {
    tellError(wrong, faultOf(element(wrong)));
  }
  return wrong === undefined;
}

/** Shows what the server says of a value at its field; false where it says nothing of one. */
export function toldAtField(fault, action) {
  const fields = FIELDS[action?.do] ?? {};
  const name = Object.keys(fields).find((it) => new RegExp(`(^|[ \`'])${it}[\`']? `).test(fault.message));
  if (name !== undefined) {
    tellError(fields[name], fault.message);
  }
  return name !== undefined;
}

/** A clock time with two digits for the hour. */
export function clockIn(name) {
  return element(name).value.padStart(5, "0");
}
