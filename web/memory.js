/** What a browser keeps for the page. One that is set to keep nothing isn't asked in vain: the page goes on without. */
function attempt(use) {
  try {
    return use();
  } catch {
    return null;
  }
}

export function recall(storage, key) {
  return attempt(() => window[storage].getItem(key));
}

export function keep(storage, key, text) {
  attempt(() => window[storage].setItem(key, text));
}

export function forget(storage, key) {
  attempt(() => window[storage].removeItem(key));
}
