// Travel times from the server: one question at a time, and of those that wait the latest alone. An answer has all
// scenarios and percentiles, so that other sliders need no further question.

import { LATER, NEVER } from "../core/constants.js";
import { setSource } from "../core/source.js";
import { point } from "./point.js";
import { head } from "../page/data.js";

export const asked = JSON.parse(document.getElementById("asked").textContent);
const ANSWERS_KEPT = 30; // by question
const RELOAD_AFTER = 3000; // milliseconds, for the message to be read
export const live = {
  version: asked.version, // the number of this tab's network; other tabs may have others
  first: asked.first, last: asked.last, // departures, HH:MM
  trips: asked.trips, walk: asked.walk, // vehicles at most, seconds at most
  actions: asked.actions, // changes of the network
  tab: Array.from(crypto.getRandomValues(new Uint8Array(12)), (it) => it.toString(16).padStart(2, "0")).join(""),
  turn: 0, // of questions
};

/** What the server answers, as its response; a fault in one line where it refuses. */
export async function answerOf(name, words, body) {
  const query = new URLSearchParams(words).toString();
  const how = body === undefined ? {} : { method: "POST", body: JSON.stringify(body),
    headers: { "Content-Type": "application/json" } };
  let response;
  try {
    response = await fetch(`${name}${query ? `?${query}` : ""}`, how);
  } catch {
    throw new Error("The server has ended: start ttm-tools explore again.");
  }
  if (!response.ok) {
    const told = await response.json().catch(() => ({ fault: `the server answered with status ${response.status}` }));
    throw new Error(told.fault);
  }
  return response;
}

/** Shows a fault, or takes it away. */
export function tellFault(fault) {
  const shown = document.getElementById("fault");
  shown.hidden = fault === null;
  shown.textContent = fault === null ? "" : fault.message;
}

class Asker {
  constructor() {
    this.answers = new Map(); // by question, the most recent one at the end
    this.running = null; // the question that is on its way, and its answer
    this.waiting = null; // the one that comes next
  }

  /** The answer to a question; null where a later one took its place. */
  ask(words) {
    const key = JSON.stringify(words), known = this.answers.get(key);
    if (known !== undefined) {
      this.answers.delete(key);
      this.answers.set(key, known);
      return Promise.resolve(known);
    }
    if (this.running?.key === key) {
      this.waiting?.resolve(null);
      this.waiting = null;
      return this.running.answer;
    }
    return new Promise((resolve, reject) => {
      this.waiting?.resolve(null);
      this.waiting = { key, words, resolve, reject };
      this.next();
    });
  }

  next() {
    if (this.running !== null || this.waiting === null) {
      return;
    }
    const { key, words, resolve, reject } = this.waiting, answer = this.fetched(key, words);
    this.waiting = null;
    this.running = { key, answer };
    document.body.dataset.asking = "1";
    answer.then(resolve, reject).finally(() => {
      this.running = null;
      document.body.dataset.asking = "0";
      this.next();
    });
  }

  async fetched(key, { version, ...words }) {
    live.turn++;
    const response = await answerOf("times", { ...words, version, tab: live.tab, turn: live.turn });
    if (response.status === 204) {
      return null;
    }
    const seconds = new Int32Array(await response.arrayBuffer());
    if (Number(response.headers.get("X-Version")) !== version) {
      setTimeout(() => location.reload(), RELOAD_AFTER);
      throw new Error("The server answered for another network: the page reloads.");
    }
    this.answers.set(key, seconds);
    if (this.answers.size > ANSWERS_KEPT) {
      this.answers.delete(this.answers.keys().next().value);
    }
    return seconds;
  }
}

export const asker = new Asker();
/** The answer for a place in seconds: by scenario and percentile a number for each column, -1 where one isn't reached;
 * null where it was overtaken.
 */
function answerFrom(place) {
  const { version, first, last, trips } = live;
  return asker.ask({ version, ...point.originOf(place), first, last, trips });
}

const inMinutes = new WeakMap(); // answers in whole minutes, rounded up, as the page has them

function minutesOf(answer) {
  if (!inMinutes.has(answer)) {
    const minutes = new Uint8Array(answer.length);
    for (let cell = 0; cell < answer.length; cell++) {
      minutes[cell] = answer[cell] < 0 ? NEVER : Math.min(LATER, Math.ceil(answer[cell] / 60));
    }
    inMinutes.set(answer, minutes);
  }
  return inMinutes.get(answer);
}

/** Travel times from a place in minutes, for each column; null where there are none, or the answer was overtaken. */
async function minutesOfServer(place, scenario, share) {
  try {
    const answer = await answerFrom(place), begin = (scenario * head.shares.length + share) * head.columns;
    tellFault(null);
    return answer === null ? null : minutesOf(answer).subarray(begin, begin + head.columns);
  } catch (fault) {
    tellFault(fault);
    return null;
  }
}

setSource(minutesOfServer);
