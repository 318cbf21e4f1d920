/** Shows a failure in its place, with what to do and what else is to be said; hides the place where there is none. */
export function showFailure(place, failure, more = "") {
  const text = failure ? [failure.message, failure.advice, more].filter(Boolean).join(" ") : "";
  place.hidden = !failure;
  if (place.textContent !== text) {
    place.textContent = text;
  }
}
