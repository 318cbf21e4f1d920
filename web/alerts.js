import { printMoment, toldMoment } from "./clock.js";
import { printAddress } from "./address.js";
import { button, count, countStates, element, textOrLink } from "./elements.js";
import { labelMatcher, labelMatchers, printMatcher, printMatchers, withMatcher } from "./matchers.js";
import { readAlerts, readGroups, readSilences, silenceName } from "./server.js";

/** The view of the firing alerts in their groups. */
export class AlertsView {
  title = "Alerts";
  #hooks;
  #address;
  #groups = [];
  /** The alerts, each once, though it may be in several groups. */
  #alerts = [];
  #silences = new Map();
  #labels = new Map();
  #opened = new Set();
  #folded = new Set();

  /** `hooks.silence(labels)` opens the form for a silence, `hooks.redraw()` shows the items again. */
  constructor(hooks) {
    this.#hooks = hooks;
  }

  async load(address, signal) {
    const [groups, silences] = await Promise.all([readGroups(address, signal), readSilences("", signal)]);
    const labels = await this.#labelsWithInhibitors(groups, signal);
    const isMarkedAnew = address.marked !== this.#address?.marked;
    this.#address = address;
    this.#groups = withKeys(groups);
    this.#alerts = distinct(groups);
    if (isMarkedAnew) {
      this.#unfoldMarked();
    }
    this.#silences = new Map(silences.map((silence) => [silence.id, silence]));
    this.#labels = labels;
  }

  /** The labels by fingerprint, of the alerts in the groups and of those that inhibit them, which may not be shown. */
  async #labelsWithInhibitors(groups, signal) {
    const alerts = groups.flatMap((group) => group.alerts);
    const labels = new Map(alerts.map((alert) => [alert.fingerprint, alert.labels]));
    const others = alerts.flatMap(({ status }) => status.inhibitedBy).filter((one) => !labels.has(one));
    for (const one of others.filter((one) => this.#labels.has(one))) {
      labels.set(one, this.#labels.get(one));
    }
    if (others.some((one) => !labels.has(one))) {
      for (const alert of await readAlerts("", signal)) {
        labels.set(alert.fingerprint, alert.labels);
      }
    }
    return labels;
  }

  #unfoldMarked() {
    const isMarked = ({ fingerprint }) => fingerprint === this.#address.marked;
    for (const { key } of this.#groups.filter(({ alerts }) => alerts.some(isMarked))) {
      this.#folded.delete(key);
    }
  }

  items() {
    return this.#groups.flatMap((group) => [
      { key: group.key, group },
      ...(this.#folded.has(group.key) ? [] : group.alerts.map((alert) => ({ key: alert.key, alert }))),
    ]);
  }

  /** The key of the item of the alert with this fingerprint. */
  keyOf(fingerprint) {
    return this.items().find(({ alert }) => alert?.fingerprint === fingerprint)?.key;
  }

  summary() {
    if (this.#alerts.length === 0) {
      return "No alert fires that this view shows.";
    }
    const numbers = countStates(this.#alerts, statesOf);
    return `${count(this.#alerts.length, "alert")} in ${count(this.#groups.length, "group")}: ${numbers}`;
  }

  /** How many alerts are active. */
  active() {
    return this.#alerts.filter(({ status }) => status.state === "active").length;
  }

  /** Whether all groups are folded. */
  areFolded() {
    return this.#groups.length > 0 && this.#groups.every(({ key }) => this.#folded.has(key));
  }

  /** Folds all groups, or unfolds them where all are folded. */
  foldAll() {
    this.#folded = new Set(this.areFolded() ? [] : this.#groups.map(({ key }) => key));
    this.#hooks.redraw();
  }

  describe({ group, alert }) {
    return alert ? this.#describeAlert(alert) : this.#describeGroup(group);
  }

  #describeGroup({ key, labels, receiver, alerts }) {
    return {
      key,
      receiver: receiver.name,
      labels: this.#describeLabels(labels),
      size: count(alerts.length, "alert"),
      isFolded: this.#folded.has(key),
    };
  }

  #describeAlert(alert) {
    return {
      key: alert.key,
      isAlert: true,
      name: alert.labels.alertname ?? "Alert without a name",
      text: alert.annotations[mainAnnotation(alert)] ?? "",
      states: statesOf(alert),
      startsAt: alert.startsAt,
      labels: this.#describeLabels(alert.labels),
      mutes: [...this.#describeSilences(alert), ...this.#describeInhibitors(alert)],
      isMarked: alert.fingerprint === this.#address.marked,
      details: this.#opened.has(alert.key) ? detailsOf(alert) : null,
    };
  }

  /** Each label with the address of the view that it narrows this one to. */
  #describeLabels(labels) {
    return Object.entries(labels).map(([name, value]) => {
      const filter = withMatcher(this.#address.filter, labelMatcher(name, value));
      return { name, value, href: printAddress({ ...this.#address, filter, marked: "" }) };
    });
  }

  #describeSilences({ status }) {
    return status.silencedBy.map((id) => {
      const silence = this.#silences.get(id);
      const name = silence
        ? `${silenceName(silence)} (${silence.createdBy}, until ${printMoment(Date.parse(silence.endsAt))})`
        : id;
      return { how: "Silenced by", name, href: printAddress({ view: "silences", marked: id }) };
    });
  }

  #describeInhibitors({ status }) {
    return status.inhibitedBy.map((fingerprint) => {
      const labels = this.#labels.get(fingerprint) ?? {};
      const { alertname, ...others } = labels;
      const rest = labelMatchers(others).map(printMatcher).join(", ");
      const name = [alertname ?? `alert ${fingerprint}`, rest].filter(Boolean).join(" ");
      const filter = printMatchers(labelMatchers(labels));
      return { how: "Inhibited by", name, href: printAddress({ view: "alerts", filter, marked: fingerprint }) };
    });
  }

  draw(description) {
    return description.isAlert ? this.#drawAlert(description) : this.#drawGroup(description);
  }

  #drawGroup({ key, receiver, labels, size, isFolded }) {
    const own = Object.fromEntries(labels.map(({ name, value }) => [name, value]));
    return element(
      "article",
      { class: "group head", "aria-label": `Group of ${size}` },
      element(
        "span",
        { class: "title" },
        button(`${isFolded ? "▸" : "▾"} ${size}`, "Enter", () => this.#fold(key), { "aria-expanded": !isFolded }),
        element("span", { class: "quiet" }, `to ${receiver || "a receiver without a name"}`),
        drawLabels(labels)
      ),
      labels.length > 0
        ? element("span", { class: "acts" }, button("Silence group", "s", () => this.#hooks.silence(own)))
        : null
    );
  }

  #drawAlert({ key, name, text, states, startsAt, labels, mutes, isMarked, details }) {
    const own = Object.fromEntries(labels.map((label) => [label.name, label.value]));
    return element(
      "article",
      { class: `alert ${states[0]}${isMarked ? " marked" : ""}`, "aria-label": name },
      element(
        "div",
        { class: "head" },
        element(
          "span",
          { class: "title" },
          element("strong", {}, name),
          ...states.map((state) => element("span", { class: `state ${state}` }, state)),
          element("span", { class: "quiet" }, toldMoment("since", startsAt))
        ),
        element(
          "span",
          { class: "acts" },
          button("Silence", "s", () => this.#hooks.silence(own)),
          button(details ? "Less" : "More", "Enter", () => this.#open(key), { "aria-expanded": details !== null })
        )
      ),
      text ? element("p", {}, text) : null,
      drawLabels(labels.filter((label) => label.name !== "alertname")),
      ...mutes.map(({ how, name: by, href }) => element("p", { class: "mute" }, `${how} `, element("a", { href }, by))),
      details && drawDetails(details)
    );
  }

  #fold(key) {
    toggle(this.#folded, key);
    this.#hooks.redraw();
  }

  #open(key) {
    toggle(this.#opened, key);
    this.#hooks.redraw();
  }
}

/**
 * The groups and their alerts, each with a key of its own. Several routes may make groups of one receiver with the same
 * labels, and fingerprints may collide, so that one alert would hide another.
 */
function withKeys(groups) {
  const seen = new Map();
  return groups.map((group) => {
    const name = JSON.stringify([group.receiver.name, group.labels]);
    const number = (seen.get(name) ?? 0) + 1;
    seen.set(name, number);
    const key = `${number} ${name}`;
    const alerts = group.alerts.map((alert) => ({ ...alert, key: `${key} ${JSON.stringify(alert.labels)}` }));
    return { ...group, key, alerts };
  });
}

function distinct(groups) {
  const alerts = groups.flatMap((group) => group.alerts);
  return [...new Map(alerts.map((alert) => [JSON.stringify(alert.labels), alert])).values()];
}

function toggle(set, key) {
  if (!set.delete(key)) {
    set.add(key);
  }
}

/** What is the case of an alert: `silenced`, `inhibited` or both, else `active`. */
function statesOf({ status }) {
  const states = [];
  if (status.silencedBy.length > 0) {
    states.push("silenced");
  }
  if (status.inhibitedBy.length > 0) {
    states.push("inhibited");
  }
  return states.length > 0 ? states : ["active"];
}

/** The annotation that is shown without being asked for. */
function mainAnnotation({ annotations }) {
  return ["summary", "description"].find((name) => annotations[name]);
}

/** What else is known of an alert, as names and texts. */
function detailsOf(alert) {
  const { annotations, startsAt, endsAt, receivers, generatorURL, fingerprint } = alert;
  return [
    ...Object.entries(annotations).filter(([name]) => name !== mainAnnotation(alert)),
    ["fires since", printMoment(Date.parse(startsAt))],
    ["ends, unless posted again", printMoment(Date.parse(endsAt))],
    ["receivers", receivers.map(({ name }) => name).join(", ")],
    ["source", generatorURL],
    ["fingerprint", fingerprint],
  ].filter(([, text]) => text !== "");
}

function drawDetails(details) {
  const parts = details.flatMap(([name, text]) => [element("dt", {}, name), element("dd", {}, textOrLink(text))]);
  return element("dl", {}, ...parts);
}

function drawLabels(labels) {
  const drawn = labels.map(({ name, value, href }) => {
    const link = { href, title: "Show only alerts with this label" };
    return element("li", {}, element("a", link, element("span", { class: "quiet" }, `${name}=`), value));
  });
  return element("ul", { class: "labels" }, ...drawn);
}
