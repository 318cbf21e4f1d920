import { setByServer } from "./clock.js";
import { printMatchers } from "./matchers.js";
import { REFUSALS } from "./refusals.js";

/** Beside the folder that the page is served from, without the name and password that the page's address may have. */
const API = new URL("../alertmanager/api/v2/", location.origin + location.pathname);
/** Milliseconds after which a request counts as unanswered. */
const LONGEST = 30000;
/** What a proxy's own answers mean, which have no code of amring's. */
const SAYS_PROXY = {
  401: ["The proxy doesn't know who asks.", "Load the page again to sign in."],
  403: ["The proxy doesn't let this request through.", "Ask whoever runs it."],
  502: ["The proxy answers, but amring behind it doesn't.", "See that amring runs."],
  503: ["The proxy answers, but amring behind it doesn't.", "See that amring runs."],
  504: ["The proxy answers, but amring behind it takes too long.", "See that amring runs."],
};

/** Why a request gave nothing, and what to do, in words. */
class Failure extends Error {
  constructor(headline, advice) {
    super(headline);
    this.advice = advice;
  }
}

/** The failure that a code of docs/API.md stands for. */
export function refusal(code) {
  const { cause, remedy } = REFUSALS[code] ?? { cause: "a code that this page doesn't know", remedy: "" };
  return new Failure(`Refused with ${code}: ${cause}`, remedy);
}

async function failureOf(reply) {
  const body = await reply.json().catch(() => null);
  if (body?.code) {
    return refusal(body.code);
  }
  const [headline, advice] = SAYS_PROXY[reply.status] ?? ["The proxy doesn't do it.", "Ask whoever runs it."];
  return new Failure(`${headline} (Status ${reply.status}.)`, advice);
}

async function send(method, path, { parameters = [], body, signal }) {
  const url = new URL(path, API);
  url.search = new URLSearchParams(parameters);
  const signals = [AbortSignal.timeout(LONGEST), ...(signal ? [signal] : [])];
  let reply;
  try {
    reply = await fetch(url, {
      method,
      body: body && JSON.stringify(body),
      cache: "no-store",
      signal: AbortSignal.any(signals),
    });
  } catch (error) {
    signal?.throwIfAborted();
    const isLate = error.name === "TimeoutError";
    throw new Failure(
      isLate ? "The server took too long to answer." : "The server can't be reached.",
      "See that this device has a connection and that the server runs."
    );
  }
  setByServer(reply.headers.get("Date"));
  if (!reply.ok) {
    throw await failureOf(reply);
  }
  return reply;
}

/** What the body of a reply says. */
async function ask(method, path, options = {}) {
  const reply = await send(method, path, options);
  const text = await reply.text().catch(() => "broken off");
  options.signal?.throwIfAborted();
  try {
    return text === "" ? null : JSON.parse(text);
  } catch {
    throw new Failure("The reply broke off or isn't amring's.", "Load the page again: you may have to sign in.");
  }
}

/** A pattern that takes this text alone. */
function exactly(text) {
  return text.replace(/[\\.+*?()|[\]{}^$]/g, "\\$&");
}

function filterParameters(filter) {
  return filter ? [["filter", filter]] : [];
}

/** The groups of the alerts that an address shows. */
export function readGroups({ filter, receiver, ...shown }, signal) {
  const parameters = filterParameters(filter);
  if (receiver !== null) {
    parameters.push(["receiver", exactly(receiver)]);
  }
  for (const state of ["active", "silenced", "inhibited"].filter((one) => !shown[one])) {
    parameters.push([state, "false"]);
  }
  return ask("GET", "alerts/groups", { parameters, signal });
}

/** The alerts that a text of matchers takes; all where it is empty. */
export function readAlerts(filter, signal) {
  return ask("GET", "alerts", { parameters: filterParameters(filter), signal });
}

/** The silences that have these matchers; all where the text is empty. */
export function readSilences(filter, signal) {
  return ask("GET", "silences", { parameters: filterParameters(filter), signal });
}

export function readReceivers(signal) {
  return ask("GET", "receivers", { signal });
}

/** Makes or changes a silence. */
export function postSilence(silence) {
  return ask("POST", "silences", { body: silence });
}

export function expireSilence(id) {
  return ask("DELETE", `silence/${encodeURIComponent(id)}`);
}

/** How a silence is named: by its reason, else by what it takes. */
export function silenceName({ comment, matchers }) {
  return comment.trim() || printMatchers(matchers);
}
