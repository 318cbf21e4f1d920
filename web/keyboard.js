/** Keys that go through the list, and by how many rows. */
const STEPS = { j: 1, k: -1 };

/**
 * Hears the keys of the whole page. `j` and `k` go through the list; any other key clicks what names it in
 * `aria-keyshortcuts`, in the row that has the focus or else beside the list, or goes into it where it is a field.
 */
export function hearKeys(list) {
  addEventListener("keydown", (event) => {
    if (event.ctrlKey || event.metaKey || event.altKey || document.querySelector("dialog[open]")) {
      return;
    }
    if (isField(event.target)) {
      leaveBy(event);
    } else if (event.key in STEPS) {
      list.step(STEPS[event.key]);
    } else {
      use(event);
    }
  });
}

function isField(target) {
  return target.matches("textarea, select, input:not([type=checkbox])");
}

/** Escape leaves a field as it is, though browsers would empty some. */
function leaveBy(event) {
  if (event.key === "Escape") {
    event.preventDefault();
    event.target.blur();
  }
}

function use(event) {
  const found = namedIn(document.activeElement.closest("[data-key]"), event) ?? namedBesideList(event);
  if (!found) {
    return;
  }
  event.preventDefault();
  if (isField(found)) {
    found.select();
  } else {
    found.click();
  }
}

function shortcut({ key }) {
  return `[aria-keyshortcuts="${CSS.escape(key)}"]`;
}

/** What a row names a key for. Enter on a control within it is the control's own. */
function namedIn(row, event) {
  const isOwn = event.key === "Enter" && event.target !== row;
  return row && !isOwn ? row.querySelector(shortcut(event)) : null;
}

function namedBesideList(event) {
  return event.key === "Enter" ? null : document.querySelector(`:is(header, #query, main > .head) ${shortcut(event)}`);
}
