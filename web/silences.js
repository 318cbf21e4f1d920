import { printMoment, toldMoment } from "./clock.js";
import { printAddress } from "./address.js";
import { button, count, countStates, element } from "./elements.js";
import { printMatcher, printMatchers } from "./matchers.js";
import { readSilences } from "./server.js";

/** The states of silences, and which of two in one state comes first. */
const ORDERS = {
  active: (a, b) => compare(a.endsAt, b.endsAt),
  pending: (a, b) => compare(a.startsAt, b.startsAt),
  expired: (a, b) => compare(b.endsAt, a.endsAt),
};
const HEADLINES = { active: "Active", pending: "Pending", expired: "Expired in the last five days" };

/** The view of the silences by their states. */
export class SilencesView {
  title = "Silences";
  #hooks;
  #address;
  #silences = [];
  /** The identifier of the silence of which is asked whether it is to expire. */
  #asked = "";

  /** `hooks.change(silence)` and `hooks.again(silence)` open the form, `hooks.expire(id)` lets one expire. */
  constructor(hooks) {
    this.#hooks = hooks;
  }

  async load(address, signal) {
    this.#silences = await readSilences(address.filter, signal);
    this.#address = address;
  }

  items() {
    return Object.entries(ORDERS).flatMap(([state, order]) => {
      const silences = this.#in(state).sort(order);
      const rows = silences.map((silence) => ({ key: silence.id, silence }));
      return rows.length > 0 ? [{ key: state, state, size: rows.length }, ...rows] : [];
    });
  }

  #in(state) {
    return this.#silences.filter(({ status }) => status.state === state);
  }

  keyOf(id) {
    return this.#silences.find((silence) => silence.id === id)?.id;
  }

  summary() {
    const { marked, filter } = this.#address;
    if (marked && !this.keyOf(marked)) {
      return "The silence of this link isn't held any more: it goes five days after its end.";
    }
    if (this.#silences.length === 0) {
      return filter ? "No silence has these matchers." : "There are no silences.";
    }
    const numbers = countStates(this.#silences, ({ status }) => [status.state]);
    return `${count(this.#silences.length, "silence")}: ${numbers}`;
  }

  active() {
    return 0;
  }

  describe({ key, state, size, silence }) {
    if (!silence) {
      return { key, state, size };
    }
    const isMarked = this.#address.marked === key;
    return { key, silence: withoutClock(silence), isAsked: this.#asked === key, isMarked };
  }

  draw(description) {
    return description.silence ? this.#drawSilence(description) : drawState(description);
  }

  #drawSilence({ silence, isAsked, isMarked }) {
    const { matchers, createdBy, comment, status } = silence;
    const shown = printAddress({ view: "alerts", filter: printMatchers(matchers) });
    return element(
      "article",
      { class: `silence ${status.state}${isMarked ? " marked" : ""}`, "aria-label": comment || "Silence" },
      element(
        "div",
        { class: "head" },
        element(
          "span",
          { class: "title" },
          element("strong", {}, comment || "No reason given"),
          element("span", { class: "quiet" }, `by ${createdBy || "nobody named"}`)
        ),
        element("span", { class: "acts" }, ...(isAsked ? this.#answers(silence) : this.#actions(silence)))
      ),
      element("p", {}, ...drawTimes(silence)),
      element("ul", { class: "labels" }, ...matchers.map((one) => element("li", {}, printMatcher(one)))),
      element("p", {}, element("a", { href: shown }, "Alerts that it takes"))
    );
  }

  #actions(silence) {
    if (silence.status.state === "expired") {
      return [button("Silence again", "e", () => this.#hooks.again(silence))];
    }
    return [
      button("Extend", "e", () => this.#hooks.change(silence)),
      button("Expire", "x", () => this.#ask(silence.id)),
    ];
  }

  /** Where the question stood is the answer that does nothing, for those who click twice. */
  #answers({ id }) {
    return [button("Yes, expire it", "x", () => this.#expire(id)), button("Keep it", "Escape", () => this.#ask(""))];
  }

  #ask(id) {
    this.#asked = id;
    this.#hooks.redraw();
  }

  #expire(id) {
    this.#ask("");
    this.#hooks.expire(id);
  }
}

function compare(a, b) {
  return Date.parse(a) - Date.parse(b);
}

/** A silence without what changes though it doesn't. */
function withoutClock({ updatedAt, ...silence }) {
  return silence;
}

function drawState({ state, size }) {
  return element(
    "article",
    { class: "group head", "aria-label": HEADLINES[state] },
    element("strong", {}, HEADLINES[state]),
    element("span", { class: "quiet" }, count(size, "silence"))
  );
}

/** From when and until when a silence holds. */
function drawTimes({ startsAt, endsAt, status }) {
  const end = ` ${printMoment(Date.parse(endsAt))} (`;
  if (status.state === "pending") {
    const start = `From ${printMoment(Date.parse(startsAt))} (`;
    return [start, toldMoment("until", startsAt), `) until${end}`, toldMoment("until", endsAt), ")"];
  }
  return [status.state === "active" ? `Until${end}` : `Ended${end}`, toldMoment("until", endsAt), ")"];
}
