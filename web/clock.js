import { element } from "./elements.js";

const UNITS = { y: 31536000000, w: 604800000, d: 86400000, h: 3600000, m: 60000, s: 1000 };
const DURATION = /^(?:(\d+)y)?(?:(\d+)w)?(?:(\d+)d)?(?:(\d+)h)?(?:(\d+)m)?(?:(\d+)s)?$/;
/** The header `Date` has whole seconds and is some time under way: so much is no difference between clocks. */
const SAME_CLOCK = 3000;

let ahead = 0;

/** Learns from a reply's header `Date` how far the server's clock is ahead of this device's, which may be wrong. */
export function setByServer(date) {
  const difference = Date.parse(date) - Date.now();
  if (!Number.isNaN(difference)) {
    ahead = Math.abs(difference) > SAME_CLOCK ? difference : 0;
  }
}

/** Milliseconds since 1970 by the server's clock. */
export function now() {
  return Date.now() + ahead;
}

/** The milliseconds of a text as `1h30m` (units y, w, d, h, m, s, in this order), or null. */
export function readDuration(text) {
  const found = DURATION.exec(text.replaceAll(" ", ""));
  if (!found || found[0] === "") {
    return null;
  }
  const sizes = Object.values(UNITS);
  return found.slice(1).reduce((sum, digits, place) => sum + Number(digits ?? 0) * sizes[place], 0);
}

/** A length of time by its two greatest units: `2 h 10 min`. */
export function printDuration(milliseconds) {
  const seconds = Math.max(0, Math.round(milliseconds / 1000));
  const parts = [
    [Math.floor(seconds / 86400), "d"],
    [Math.floor(seconds / 3600) % 24, "h"],
    [Math.floor(seconds / 60) % 60, "min"],
    [seconds % 60, "s"],
  ];
  const first = parts.findIndex(([number]) => number > 0);
  if (first < 0) {
    return "0 s";
  }
  return parts
    .slice(first, first + 2)
    .filter(([number]) => number > 0)
    .map(([number, unit]) => `${number} ${unit}`)
    .join(" ");
}

/** A moment by the reader's own time zone, without the date where that is today's. */
export function printMoment(moment) {
  const date = new Date(moment);
  const time = date.toLocaleTimeString([], { hour: "2-digit", minute: "2-digit" });
  if (date.toDateString() === new Date(now()).toDateString()) {
    return time;
  }
  const isThisYear = date.getFullYear() === new Date(now()).getFullYear();
  const day = { weekday: "short", day: "numeric", month: "short", year: isThisYear ? undefined : "numeric" };
  return `${date.toLocaleDateString([], day)}, ${time}`;
}

/** A moment with its date, its seconds and its time zone. */
function printExactly(moment) {
  return new Date(moment).toLocaleString([], { dateStyle: "full", timeStyle: "long" });
}

/** How the age of each kind of moment is told. */
const TOLD = {
  since: (moment) => (moment > now() ? `from ${printMoment(moment)} on` : `for ${printDuration(now() - moment)}`),
  until: (moment) => (moment > now() ? `in ${printDuration(moment - now())}` : `${printDuration(now() - moment)} ago`),
};

/** A moment, told by for how long it is past (`since`) or how far off it is (`until`); `retell` keeps that right. */
export function toldMoment(kind, text) {
  const moment = Date.parse(text);
  return element("time", { datetime: text, title: printExactly(moment), "data-told": kind }, TOLD[kind](moment));
}

/** Brings what all such elements tell up to now. */
export function retell() {
  for (const time of document.querySelectorAll("time[data-told]")) {
    const text = TOLD[time.dataset.told](Date.parse(time.dateTime));
    if (time.textContent !== text) {
      time.textContent = text;
    }
  }
}

/** What a field for a date and a time holds at this moment: local, in whole minutes. */
export function fieldOf(moment) {
  const date = new Date(moment);
  return new Date(moment - date.getTimezoneOffset() * 60000).toISOString().slice(0, 16);
}
