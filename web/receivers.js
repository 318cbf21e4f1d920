import { printAddress } from "./address.js";
import { count, element } from "./elements.js";
import { readAlerts, readReceivers } from "./server.js";

/** The view of the receivers of the configuration in use. */
export class ReceiversView {
  title = "Receivers";
  #receivers = [];

  async load(_address, signal) {
    const [receivers, alerts] = await Promise.all([readReceivers(signal), readAlerts("", signal)]);
    const sizes = new Map(receivers.map(({ name }) => [name, { alerts: 0, active: 0 }]));
    for (const alert of alerts) {
      for (const size of alert.receivers.map(({ name }) => sizes.get(name)).filter(Boolean)) {
        size.alerts += 1;
        size.active += alert.status.state === "active" ? 1 : 0;
      }
    }
    this.#receivers = [...sizes].map(([name, size]) => ({ key: `receiver ${name}`, name, ...size }));
  }

  items() {
    return this.#receivers;
  }

  keyOf() {
    return undefined;
  }

  summary() {
    return count(this.#receivers.length, "receiver");
  }

  active() {
    return 0;
  }

  describe(receiver) {
    return receiver;
  }

  draw({ name, alerts, active }) {
    const href = printAddress({ view: "alerts", receiver: name });
    return element(
      "article",
      { class: "receiver", "aria-label": name },
      element(
        "div",
        { class: "head" },
        element("strong", {}, element("a", { href }, name || "(without a name)")),
        element("span", { class: "quiet" }, `${count(alerts, "alert")}, ${active.toLocaleString("en")} active`)
      )
    );
  }
}
