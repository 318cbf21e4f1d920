import { printAddress } from "./address.js";
import { byId, element } from "./elements.js";
import { readReceivers } from "./server.js";

/** Milliseconds without a key after which what was typed is asked for. */
const PAUSE = 400;
const LABELS = { alerts: "Filter", silences: "Silences that have these matchers" };

/** The bar that narrows a view down: it shows what an address says, and tells of each change as a new address. */
export class Query {
  #form = byId("query");
  #filter = byId("filter");
  #receiver = byId("receiver");
  #address;
  #names = [];
  #timer = 0;
  #changed;

  constructor(changed) {
    this.#changed = changed;
    this.#filter.addEventListener("input", () => this.#tellSoon());
    this.#form.addEventListener("change", () => this.#tell());
    this.#form.addEventListener("submit", (event) => {
      event.preventDefault();
      this.#tell();
    });
  }

  /** Shows an address. What is being typed stays as it is where the address says the same. */
  show(address) {
    this.#address = address;
    this.#form.hidden = !(address.view in LABELS);
    byId("narrowing").hidden = address.view !== "alerts";
    byId("filter-label").textContent = LABELS[address.view] ?? "";
    if (this.#filter.value.trim() !== address.filter) {
      this.#filter.value = address.filter;
    }
    for (const box of this.#boxes()) {
      box.checked = address[box.name];
    }
    this.#offer();
  }

  async loadReceivers(signal) {
    const names = (await readReceivers(signal)).map(({ name }) => name);
    if (JSON.stringify(names) !== JSON.stringify(this.#names)) {
      this.#names = names;
      this.#offer();
    }
  }

  #boxes() {
    return this.#form.querySelectorAll("input[type=checkbox]");
  }

  /** Offers the receivers, and the address's own, which may be of an earlier configuration. */
  #offer() {
    const { receiver } = this.#address;
    const names = receiver === null || this.#names.includes(receiver) ? this.#names : [...this.#names, receiver];
    const options = names.map((name) => element("option", { value: name }, name || "(without a name)"));
    this.#receiver.replaceChildren(element("option", {}, "all"), ...options);
    this.#receiver.selectedIndex = receiver === null ? 0 : names.indexOf(receiver) + 1;
  }

  #tellSoon() {
    clearTimeout(this.#timer);
    this.#timer = setTimeout(() => this.#tell(), PAUSE);
  }

  #tell() {
    clearTimeout(this.#timer);
    const shown = Object.fromEntries([...this.#boxes()].map((box) => [box.name, box.checked]));
    const { selectedIndex, value } = this.#receiver;
    const receiver = selectedIndex === 0 ? null : value;
    const address = { ...this.#address, ...shown, receiver, filter: this.#filter.value.trim() };
    if (printAddress(address) !== printAddress(this.#address)) {
      this.#changed({ ...address, marked: "" });
    }
  }
}
