import { fieldOf, now, printDuration, printMoment, readDuration } from "./clock.js";
import { byId, element } from "./elements.js";
import { showFailure } from "./failures.js";
import {
  hasMatcher,
  labelMatcher,
  labelMatchers,
  printMatchers,
  readMatchers,
  withMatcher,
  withoutMatcher,
} from "./matchers.js";
import { forget, keep, recall } from "./memory.js";
import { Preview } from "./preview.js";
import { postSilence, refusal } from "./server.js";

const SPANS = ["30m", "1h", "2h", "4h", "8h", "1d", "1w"];
const FIELDS = ["matchers", "starts", "lasts", "until", "author", "comment"];
const DRAFT = `amring-silence ${location.pathname}`;
const AUTHOR = "amring-author";

/**
 * The form that makes or changes a silence. What is typed stays until it is saved or dropped: over refreshes, refusals
 * and reloads of the page. Beside its fields the form has a subject, `{ title, labels, old }`: the labels that it began
 * with, and the silence that it changes, if any, as it was.
 */
export class SilenceForm {
  #dialog = byId("silence");
  #preview = new Preview();
  #subject = null;
  #saved;

  /** `saved(endsAt)` is called once the server has the silence. */
  constructor(saved) {
    this.#saved = saved;
    byId("spans").append(...SPANS.map((span) => this.#spanButton(span)));
    this.#dialog.addEventListener("input", (event) => this.#changed(event.target.id));
    this.#dialog.addEventListener("close", () => this.#drop());
    byId("cancel").addEventListener("click", () => this.#dialog.close());
    this.#dialog.querySelector("form").addEventListener("submit", (event) => {
      event.preventDefault();
      this.#save();
    });
  }

  /** For a new silence of the alerts with these labels, of which each may be left out again. */
  openFor(labels) {
    this.#begin({ title: "New silence", labels }, { matchers: printMatchers(labelMatchers(labels)), lasts: "2h" });
  }

  /** For a new silence with this text of matchers, which may be empty, and this comment. */
  openWith(matchers, comment = "") {
    this.#begin({ title: "New silence", labels: {} }, { matchers, lasts: "2h", comment });
  }

  /** For another end, or anything else, of a silence that hasn't expired. */
  openToChange(old) {
    this.#begin(
      { title: "Extend or change a silence", labels: {}, old },
      {
        matchers: printMatchers(old.matchers),
        starts: isActive(old) ? "" : fieldOf(Date.parse(old.startsAt)),
        until: fieldOf(Date.parse(old.endsAt)),
        author: old.createdBy,
        comment: old.comment,
      }
    );
  }

  /** Opens the form with what was typed before the page was loaded again, if anything was. */
  resume() {
    const draft = JSON.parse(recall("sessionStorage", DRAFT));
    if (draft) {
      this.#open(draft.subject, draft.values);
    }
  }

  #begin(subject, values) {
    this.#open(subject, { author: recall("localStorage", AUTHOR), ...values });
    const first = ["matchers", "author", "comment"].find((field) => byId(field).value === "");
    byId(first ?? "lasts").focus();
  }

  #open(subject, values) {
    this.#subject = subject;
    for (const field of FIELDS) {
      byId(field).value = values[field] ?? "";
    }
    byId("silence-title").textContent = subject.title;
    byId("starts-field").hidden = isActive(subject.old);
    showFailure(byId("silence-failure"), null);
    this.#drawMatchers();
    this.#drawEffect();
    this.#preview.show(byId("matchers").value.trim());
    this.#dialog.showModal();
  }

  #changed(field) {
    if (field === "lasts") {
      byId("until").value = "";
    } else if (field === "until") {
      byId("lasts").value = "";
    } else if (field === "matchers") {
      this.#drawMatchers();
      this.#preview.showSoon(byId("matchers").value.trim());
    }
    this.#drawEffect();
    this.#keepDraft();
  }

  #keepDraft() {
    const values = Object.fromEntries(FIELDS.map((field) => [field, byId(field).value]));
    keep("sessionStorage", DRAFT, JSON.stringify({ subject: this.#subject, values }));
  }

  #drop() {
    this.#preview.close();
    forget("sessionStorage", DRAFT);
  }

  /** Sets a field as if it had been typed. */
  #set(field, text) {
    byId(field).value = text;
    this.#changed(field);
  }

  #spanButton(span) {
    return element("button", { type: "button", click: () => this.#set("lasts", span) }, span);
  }

  /** Shows which of the labels the matchers have, and holds a text that is none of matchers back from being saved. */
  #drawMatchers() {
    const text = byId("matchers").value.trim();
    byId("matchers").setCustomValidity(readMatchers(text) ? "" : refusal("M1").advice);
    const buttons = Object.entries(this.#subject.labels).map(([name, value]) => {
      const matcher = labelMatcher(name, value);
      const isIn = hasMatcher(text, matcher);
      const click = () => this.#set("matchers", (isIn ? withoutMatcher : withMatcher)(text, matcher));
      return element("button", { type: "button", "aria-pressed": isIn, click }, `${name}=${value}`);
    });
    byId("labels").replaceChildren(...buttons);
  }

  /** Says until when the silence would hold, and whether it would be another one; holds it back without an end. */
  #drawEffect() {
    const end = this.#end();
    byId("lasts").setCustomValidity(end === null ? "Say how long, as 1h30m, or until when." : "");
    const parts = end === null ? [] : [`Holds until ${printMoment(end)}, ${printDuration(end - now())} from now.`];
    const { old } = this.#subject;
    if (old && printMatchers(readMatchers(byId("matchers").value.trim()) ?? []) !== printMatchers(old.matchers)) {
      parts.push("With other matchers the old silence expires, and a new one takes its place.");
    }
    byId("effect").textContent = parts.join(" ");
  }

  /** When the silence is to start. A field that still shows what the old one had means that to the millisecond. */
  #start() {
    const { old } = this.#subject;
    const field = byId("starts").value;
    if (old && (isActive(old) || field === fieldOf(Date.parse(old.startsAt)))) {
      return Date.parse(old.startsAt);
    }
    return field === "" ? now() : Date.parse(field);
  }

  /** When it is to end, likewise; null where the fields don't say. */
  #end() {
    const { old } = this.#subject;
    const lasts = byId("lasts").value.trim();
    const until = byId("until").value;
    if (lasts !== "") {
      const length = readDuration(lasts);
      return length === null ? null : Math.max(this.#start(), now()) + length;
    }
    if (old && until === fieldOf(Date.parse(old.endsAt))) {
      return Date.parse(old.endsAt);
    }
    return until === "" ? null : Date.parse(until);
  }

  #read() {
    return {
      id: this.#subject.old?.id,
      matchers: readMatchers(byId("matchers").value.trim()),
      startsAt: new Date(this.#start()).toISOString(),
      endsAt: new Date(this.#end()).toISOString(),
      createdBy: byId("author").value.trim(),
      comment: byId("comment").value.trim(),
    };
  }

  async #save() {
    const silence = this.#read();
    byId("save").disabled = true;
    try {
      await postSilence(silence);
      keep("localStorage", AUTHOR, silence.createdBy);
      this.#dialog.close();
      this.#saved(silence.endsAt);
    } catch (failure) {
      showFailure(byId("silence-failure"), failure);
    } finally {
      byId("save").disabled = false;
    }
  }
}

function isActive(silence) {
  return silence?.status.state === "active";
}
