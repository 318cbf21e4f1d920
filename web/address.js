/**
 * What is shown stands in the address behind `#`, so that a view can be sent: `#alerts?filter=severity%3D"page"`.
 *
 * - `view`: `alerts`, `silences` or `receivers`
 * - `filter`: a text of matchers, or empty
 * - `receiver`: the name of a receiver, or null for all
 * - `active`, `silenced`, `inhibited`: whether such alerts are shown
 * - `marked`: the fingerprint of an alert or the identifier of a silence that a link led to, or empty
 */
const VIEWS = ["alerts", "silences", "receivers"];
const STATES = ["active", "silenced", "inhibited"];

export function readAddress(hash) {
  const [view, query = ""] = hash.replace(/^#/, "").split(/\?(.*)/s);
  const parameters = new URLSearchParams(query);
  const address = {
    view: VIEWS.includes(view) ? view : VIEWS[0],
    filter: parameters.get("filter") ?? "",
    receiver: parameters.get("receiver"),
    marked: parameters.get("marked") ?? "",
  };
  for (const state of STATES) {
    address[state] = parameters.get(state) !== "false";
  }
  return address;
}

/** The address of a view; what is left out is as at first. */
export function printAddress({ view, filter, receiver, marked, ...shown }) {
  const parameters = new URLSearchParams();
  if (filter) {
    parameters.set("filter", filter);
  }
  if (receiver !== null && receiver !== undefined) {
    parameters.set("receiver", receiver);
  }
  for (const state of STATES.filter((one) => shown[one] === false)) {
    parameters.set(state, "false");
  }
  if (marked) {
    parameters.set("marked", marked);
  }
  const query = parameters.toString();
  return query ? `#${view}?${query}` : `#${view}`;
}
