import { printAddress, readAddress } from "./address.js";
import { AlertsView } from "./alerts.js";
import { now, printDuration, printMoment, retell } from "./clock.js";
import { byId } from "./elements.js";
import { showFailure } from "./failures.js";
import { hearKeys } from "./keyboard.js";
import { printMatchers } from "./matchers.js";
import { Query } from "./query.js";
import { ReceiversView } from "./receivers.js";
import { expireSilence } from "./server.js";
import { SilenceForm } from "./silence-form.js";
import { SilencesView } from "./silences.js";
import { WindowedList } from "./windowed.js";

/** Milliseconds from one refresh to the next. */
const PERIOD = 15000;
/** Or so many times as long as the last one took, where that is more. */
const REST = 20;
/** Milliseconds for which is told what was done. */
const TOLD = 8000;

/** The page: which view is shown, when it was read last, and what is told of it. */
class Page {
  #form = new SilenceForm((endsAt) => this.#done(`Saved: it ends ${printMoment(Date.parse(endsAt))}.`));
  #views = {
    alerts: new AlertsView({ silence: (labels) => this.#form.openFor(labels), redraw: () => this.#redraw() }),
    silences: new SilencesView({
      change: (silence) => this.#form.openToChange(silence),
      again: ({ matchers, comment }) => this.#form.openWith(printMatchers(matchers), comment),
      expire: (id) => this.#expire(id),
      redraw: () => this.#redraw(),
    }),
    receivers: new ReceiversView(),
  };
  #query = new Query((address) => this.#go(address));
  #list = new WindowedList(
    byId("list"),
    (item) => this.#view().describe(item),
    (description) => this.#view().draw(description)
  );
  #address;
  /** When what is shown was read, or null where nothing of this view was. */
  #readAt = null;
  #failure = null;
  /** What the address marks, until it was scrolled to once. */
  #toReveal = "";
  #controller = new AbortController();
  #timer = 0;
  #toldTimer = 0;

  start() {
    byId("tenant").textContent = tenant();
    byId("refresh").addEventListener("click", () => this.#refresh());
    byId("new").addEventListener("click", () => this.#form.openWith(this.#address.filter));
    byId("help").addEventListener("click", () => byId("keys").showModal());
    byId("fold").addEventListener("click", () => this.#views.alerts.foldAll());
    addEventListener("hashchange", () => this.#open(readAddress(location.hash)));
    document.addEventListener("visibilitychange", () => document.hidden || this.#refresh());
    setInterval(() => this.#tellTime(), 1000);
    hearKeys(this.#list);
    this.#open(readAddress(location.hash));
    this.#form.resume();
  }

  #view() {
    return this.#views[this.#address.view];
  }

  /** Goes to an address that isn't to be a step of its own for the browser's button `back`. */
  #go(address) {
    history.replaceState(null, "", printAddress(address));
    this.#open(address);
  }

  #open(address) {
    const isOther = address.view !== this.#address?.view;
    this.#address = address;
    this.#toReveal = address.marked;
    this.#query.show(address);
    if (isOther) {
      this.#begin(address.view);
    }
    scrollTo(0, 0);
    this.#refresh();
  }

  /** Begins a view of which nothing was read yet. */
  #begin(view) {
    this.#readAt = null;
    this.#list.clear();
    byId("summary").textContent = "Loading";
    byId("fold").hidden = view !== "alerts";
    for (const link of document.querySelectorAll("nav a")) {
      link.setAttribute("aria-current", link.hash === `#${view}` ? "page" : "false");
    }
  }

  /** Reads what the view shows, and again after a while. */
  async #refresh() {
    clearTimeout(this.#timer);
    this.#controller.abort();
    this.#controller = new AbortController();
    const { signal } = this.#controller;
    const begun = performance.now();
    try {
      await this.#load(signal);
      this.#failure = null;
    } catch (failure) {
      if (signal.aborted) {
        return;
      }
      this.#failure = failure;
    }
    this.#tellFailure();
    this.#tellTitle();
    const pause = Math.max(PERIOD, REST * (performance.now() - begun));
    this.#timer = setTimeout(() => this.#refresh(), pause);
  }

  async #load(signal) {
    const isOfAlerts = this.#address.view === "alerts";
    await Promise.all([
      this.#view().load(this.#address, signal),
      isOfAlerts ? this.#query.loadReceivers(signal) : undefined,
    ]);
    this.#readAt = now();
    this.#redraw();
    if (this.#toReveal) {
      this.#list.reveal(this.#view().keyOf(this.#toReveal));
      this.#toReveal = "";
    }
  }

  #redraw() {
    const view = this.#view();
    this.#list.keepStill(() => {
      byId("summary").textContent = view.summary();
      byId("fold").textContent = this.#views.alerts.areFolded() ? "Unfold groups" : "Fold groups";
    });
    this.#list.show(view.items());
    this.#tellTime();
  }

  #tellTime() {
    const place = byId("refreshed");
    place.textContent =
      this.#readAt === null ? "" : `Refreshed ${exactTime(this.#readAt)}, ${printDuration(now() - this.#readAt)} ago`;
    place.classList.toggle("late", this.#failure !== null);
    retell();
  }

  #tellFailure() {
    const shown = this.#readAt === null ? "Nothing was read yet." : `What is shown is of ${exactTime(this.#readAt)}.`;
    this.#list.keepStill(() => showFailure(byId("failure"), this.#failure, shown));
    if (this.#readAt === null) {
      byId("summary").textContent = "";
    }
    this.#tellTime();
  }

  /** The title tells a reader of other pages how many alerts are active, and whether that is known. */
  #tellTitle() {
    const view = this.#view();
    const active = view.active();
    const mark = this.#failure ? "(!) " : active > 0 ? `(${active}) ` : "";
    document.title = `${mark}${view.title} · ${tenant()}`;
  }

  async #expire(id) {
    try {
      await expireSilence(id);
      this.#done("The silence has expired.");
    } catch (failure) {
      this.#tell(`${failure.message} ${failure.advice}`);
    }
  }

  #done(text) {
    this.#tell(text);
    this.#refresh();
  }

  #tell(text) {
    const place = byId("told");
    place.textContent = text;
    place.hidden = false;
    clearTimeout(this.#toldTimer);
    this.#toldTimer = setTimeout(() => (place.hidden = true), TOLD);
  }
}

/** The tenant, as the proxy's path names it: the folder around the page's own. */
function tenant() {
  return decodeURIComponent(location.pathname.split("/").at(-3) ?? "") || "amring";
}

function exactTime(moment) {
  return new Date(moment).toLocaleTimeString();
}

new Page().start();
