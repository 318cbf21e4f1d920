/**
 * Makes an element. Attributes that are functions listen to the event of that name; absent ones are left out. Children
 * that are texts become text nodes: no text is ever taken as HTML.
 */
export function element(tag, attributes = {}, ...children) {
  const made = document.createElement(tag);
  for (const [name, value] of Object.entries(attributes)) {
    setAttribute(made, name, value);
  }
  made.append(...children.filter((child) => child !== null && child !== undefined));
  return made;
}

function setAttribute(made, name, value) {
  if (typeof value === "function") {
    made.addEventListener(name, value);
  } else if (value !== null && value !== undefined) {
    made.setAttribute(name, value);
  }
}

/** A button that a key clicks too, while its row has the focus. */
export function button(text, key, click, attributes = {}) {
  return element("button", { "aria-keyshortcuts": key, click, ...attributes }, text);
}

/** The element of the page that has this identifier. */
export function byId(id) {
  return document.getElementById(id);
}

/** A number with its noun: `1 alert`, `10,000 alerts`. */
export function count(number, noun) {
  return `${number.toLocaleString("en")} ${noun}${number === 1 ? "" : "s"}`;
}

/** How many things are in each state: `4 active, 1 inhibited`. `statesOf` gives the states of one. */
export function countStates(things, statesOf) {
  const numbers = new Map();
  for (const state of things.flatMap(statesOf)) {
    numbers.set(state, (numbers.get(state) ?? 0) + 1);
  }
  const sorted = [...numbers].sort(([a], [b]) => (a < b ? -1 : 1));
  return sorted.map(([state, number]) => `${number.toLocaleString("en")} ${state}`).join(", ");
}

/** A text, as a link where the whole of it is an address of the web; no other scheme is followed. */
export function textOrLink(text) {
  if (!/^https?:\/\/\S+$/i.test(text)) {
    return text;
  }
  return element("a", { href: text, target: "_blank", rel: "noopener noreferrer" }, text);
}
