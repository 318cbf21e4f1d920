/** Texts of matchers, as docs/SPECIFICATION.md has them; a matcher is `{ name, value, isRegex, isEqual }`. */

const NAME = /^ *([A-Za-z_][A-Za-z0-9_]*) */;
const OPERATOR = /^(=~|!~|!=|=) */;
const QUOTED = /^"((?:[^"\\]|\\["\\n])*)" */;
const BARE = /^([^,"{}]*)/;
const ESCAPES = { '\\"': '"', "\\\\": "\\", "\\n": "\n" };

/** Takes what the pattern matches off the front of a text: what its bracket holds and the rest, or null. */
function take(pattern, text) {
  const found = pattern.exec(text);
  return found && { taken: found[1], rest: text.slice(found[0].length) };
}

function takeValue(text) {
  const quoted = take(QUOTED, text);
  if (quoted) {
    return { taken: quoted.taken.replace(/\\./g, (escape) => ESCAPES[escape]), rest: quoted.rest };
  }
  const bare = text.startsWith('"') ? null : take(BARE, text);
  return bare && { taken: bare.taken.replace(/ +$/, ""), rest: bare.rest };
}

function takeMatcher(text) {
  const name = take(NAME, text);
  const operator = name && take(OPERATOR, name.rest);
  const value = operator && takeValue(operator.rest);
  if (!value) {
    return null;
  }
  const isRegex = operator.taken.endsWith("~");
  const isEqual = !operator.taken.startsWith("!");
  return { matcher: { name: name.taken, value: value.taken, isRegex, isEqual }, rest: value.rest };
}

/** The matchers that a text says, or null where it is no text of matchers. */
export function readMatchers(text) {
  const end = text.startsWith("{") ? "}" : "";
  let rest = text.slice(end.length);
  const matchers = [];
  while (true) {
    const next = takeMatcher(rest);
    if (!next) {
      return null;
    }
    matchers.push(next.matcher);
    if (next.rest === end) {
      return matchers;
    }
    if (!next.rest.startsWith(",")) {
      return null;
    }
    rest = next.rest.slice(1);
  }
}

export function printMatcher({ name, value, isRegex, isEqual }) {
  const operator = (isEqual ? "=" : "!") + (isRegex ? "~" : isEqual ? "" : "=");
  const quoted = value.replace(/["\\]/g, "\\$&").replaceAll("\n", "\\n");
  return `${name}${operator}"${quoted}"`;
}

export function printMatchers(matchers) {
  return matchers.map(printMatcher).join(", ");
}

/** The matcher that takes just this value of a label. */
export function labelMatcher(name, value) {
  return { name, value, isRegex: false, isEqual: true };
}

/** The matchers that take all these labels. */
export function labelMatchers(labels) {
  return Object.entries(labels).map(([name, value]) => labelMatcher(name, value));
}

/** Whether a text of matchers has this one. */
export function hasMatcher(text, matcher) {
  const wanted = printMatcher(matcher);
  return (readMatchers(text) ?? []).some((one) => printMatcher(one) === wanted);
}

/** A text of matchers with this one more; one that can't be read gives way. */
export function withMatcher(text, matcher) {
  return hasMatcher(text, matcher) ? text : printMatchers([...(readMatchers(text) ?? []), matcher]);
}

/** A text of matchers without this one. */
export function withoutMatcher(text, matcher) {
  const unwanted = printMatcher(matcher);
  return printMatchers((readMatchers(text) ?? []).filter((one) => printMatcher(one) !== unwanted));
}
