import { byId, count, element } from "./elements.js";
import { labelMatchers, printMatcher, readMatchers } from "./matchers.js";
import { readAlerts, refusal } from "./server.js";

/** Milliseconds without a key after which the server is asked. */
const PAUSE = 300;
/** So many alerts are named. */
const MOST_NAMED = 20;

/** Says which of the firing alerts a text of matchers takes, by the server's own judgement. */
export class Preview {
  #place = byId("preview");
  #timer = 0;
  #controller = new AbortController();

  showSoon(text) {
    this.#stop();
    this.#timer = setTimeout(() => this.show(text), PAUSE);
  }

  async show(text) {
    this.#stop();
    const { signal } = this.#controller;
    try {
      const drawn = await drawPreview(text, signal);
      this.#place.replaceChildren(...drawn);
    } catch (failure) {
      if (!signal.aborted) {
        this.#place.replaceChildren(element("p", { class: "failure" }, `${failure.message} ${failure.advice}`));
      }
    }
  }

  close() {
    this.#stop();
    this.#place.replaceChildren();
  }

  /** Asks no more for what was to be shown. */
  #stop() {
    clearTimeout(this.#timer);
    this.#controller.abort();
    this.#controller = new AbortController();
  }
}

async function drawPreview(text, signal) {
  if (text === "") {
    return [element("p", { class: "quiet" }, "Say which alerts to silence.")];
  }
  if (!readMatchers(text)) {
    throw refusal("M1");
  }
  const alerts = await readAlerts(text, signal);
  if (alerts.length === 0) {
    return [element("p", {}, "Takes no alert that fires now.")];
  }
  const names = alerts.slice(0, MOST_NAMED).map(({ labels }) => nameOf(labels));
  if (alerts.length > MOST_NAMED) {
    names.push(`and ${count(alerts.length - MOST_NAMED, "more alert")}`);
  }
  return [
    element("p", {}, `Takes ${count(alerts.length, "alert")} of those that fire now:`),
    element("ul", {}, ...names.map((name) => element("li", {}, name))),
  ];
}

function nameOf({ alertname, ...others }) {
  return [alertname, labelMatchers(others).map(printMatcher).join(", ")].filter(Boolean).join(" ");
}
