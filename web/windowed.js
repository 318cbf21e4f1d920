/** Pixels above and below what is seen in which rows are kept ready. */
const SPARE = 500;
/** The supposed height in pixels of a row that wasn't drawn yet. */
const SUPPOSED = 96;
/** Rows turn out higher or lower than supposed, so that others come into view: so often is looked again. */
const MOST_LOOKS = 5;
const FOCUSABLE = "a[href], button";

/**
 * A list of any length in the page's own scrolling, with only those rows in the document that are near to what is
 * seen. Rows may be of any height. Each item has a `key` of its own; `describe` says as plain data all that its row
 * shows, and `draw` makes the row of that: a row stays as it is, focus and all, while what is said of it does.
 */
export class WindowedList {
  #container;
  #describe;
  #draw;
  #items = [];
  #places = new Map();
  #heights = new Map();
  #tops = [0];
  #drawn = new Map();
  #width = innerWidth;
  #isWaiting = false;
  /** The item whose row had the focus last, and its place then, from which to go on where the item is gone. */
  #current = { key: "", place: -1 };

  constructor(container, describe, draw) {
    this.#container = container;
    this.#describe = describe;
    this.#draw = draw;
    addEventListener("scroll", () => this.#fillSoon(), { passive: true });
    addEventListener("resize", () => this.#fillSoon());
    container.addEventListener("focusin", (event) => {
      const { key } = event.target.closest("[data-key]").dataset;
      this.#current = { key, place: this.#places.get(key) };
    });
  }

  /** Shows these items in place of the earlier ones; the first row that is seen stays where it is. */
  show(items) {
    const anchor = this.#anchor();
    this.#items = items;
    this.#places = new Map(items.map(({ key }, place) => [key, place]));
    this.#sumHeights();
    this.#fill(anchor);
  }

  /** Shows nothing, and begins at the top again. */
  clear() {
    this.#current = { key: "", place: -1 };
    this.show([]);
  }

  /** Makes a change above the list, and keeps the rows that are seen where they are. */
  keepStill(change) {
    const anchor = this.#anchor();
    change();
    this.#fill(anchor);
  }

  /** Scrolls to the item of this key, if there is one, and gives its row the focus. */
  reveal(key) {
    const place = this.#places.get(key);
    if (place === undefined) {
      return;
    }
    if (!this.#drawn.has(key)) {
      scrollTo(0, this.#offset() + this.#tops[place] - innerHeight / 3);
      this.#fill(this.#anchor());
    }
    const { row } = this.#drawn.get(key);
    row.focus({ preventScroll: true });
    row.scrollIntoView({ block: "nearest" });
  }

  /** Goes so many rows on from the one that had the focus last. */
  step(by) {
    const place = this.#places.get(this.#current.key) ?? this.#current.place;
    const next = Math.max(Math.min(place + by, this.#items.length - 1), 0);
    this.reveal(this.#items[next]?.key);
  }

  /** The pixel of the page at which the list begins. */
  #offset() {
    return this.#container.getBoundingClientRect().top + scrollY;
  }

  #sumHeights() {
    const tops = new Float64Array(this.#items.length + 1);
    this.#items.forEach(({ key }, place) => {
      tops[place + 1] = tops[place] + (this.#heights.get(key) ?? SUPPOSED);
    });
    this.#tops = tops;
  }

  /** The place of the last row that begins at or above this pixel of the list, or of the first row. */
  #placeAt(pixel) {
    let low = 0;
    let high = Math.max(this.#items.length - 1, 0);
    while (low < high) {
      const middle = Math.ceil((low + high) / 2);
      if (this.#tops[middle] <= pixel) {
        low = middle;
      } else {
        high = middle - 1;
      }
    }
    return low;
  }

  /**
   * The row that is to stay where it is, and how far below the window's top it begins: the first that is seen, or at
   * the page's end the last. Null where the list begins in view.
   */
  #anchor() {
    const hidden = scrollY - this.#offset();
    if (hidden <= 0 || this.#items.length === 0) {
      return null;
    }
    const isAtEnd = scrollY + innerHeight >= document.documentElement.scrollHeight - 1;
    const place = isAtEnd ? this.#items.length - 1 : this.#placeAt(hidden);
    return { key: this.#items[place].key, below: this.#tops[place] - hidden };
  }

  /** How many pixels of the list are above the window's top where the anchor is held. */
  #hidden(anchor) {
    const place = anchor && this.#places.get(anchor.key);
    return place === null || place === undefined ? scrollY - this.#offset() : this.#tops[place] - anchor.below;
  }

  #fillSoon() {
    if (!this.#isWaiting) {
      this.#isWaiting = true;
      requestAnimationFrame(() => {
        this.#isWaiting = false;
        const anchor = this.#anchor();
        this.#forgetHeightsOfOtherWidth();
        this.#fill(anchor);
      });
    }
  }

  #forgetHeightsOfOtherWidth() {
    if (this.#width !== innerWidth) {
      this.#width = innerWidth;
      this.#heights.clear();
      this.#sumHeights();
    }
  }

  /** Draws what is seen, until no row is of another height than was supposed. */
  #fill(anchor) {
    for (let look = 0; look < MOST_LOOKS; look += 1) {
      const hidden = this.#hidden(anchor);
      const first = this.#placeAt(hidden - SPARE);
      const end = Math.min(this.#placeAt(hidden + innerHeight + SPARE) + 1, this.#items.length);
      this.#place(first, end);
      const isAsSupposed = this.#measure();
      this.#pad(first, end);
      this.#scrollTo(this.#hidden(anchor));
      if (isAsSupposed) {
        return;
      }
    }
  }

  #pad(first, end) {
    this.#container.style.paddingTop = `${this.#tops[first]}px`;
    this.#container.style.paddingBottom = `${this.#tops.at(-1) - this.#tops[end]}px`;
  }

  #scrollTo(hidden) {
    const wanted = this.#offset() + hidden;
    if (Math.abs(wanted - scrollY) >= 1) {
      scrollTo(0, wanted);
    }
  }

  /** Has just the rows of these places in the document, in order. */
  #place(first, end) {
    const wanted = this.#items.slice(first, end);
    const keys = new Set(wanted.map(({ key }) => key));
    for (const [key, { row }] of this.#drawn) {
      if (!keys.has(key)) {
        row.remove();
        this.#drawn.delete(key);
      }
    }
    wanted.forEach((item, at) => {
      const row = this.#rowOf(item);
      row.setAttribute("aria-posinset", first + at + 1);
      row.setAttribute("aria-setsize", this.#items.length);
      const there = this.#container.children[at] ?? null;
      if (row !== there) {
        this.#container.insertBefore(row, there);
      }
    });
  }

  /** The row of an item, drawn anew if something else is said of it. */
  #rowOf(item) {
    const { key } = item;
    const description = this.#describe(item);
    const text = JSON.stringify(description);
    const old = this.#drawn.get(key);
    if (old?.text === text) {
      return old.row;
    }
    const row = this.#draw(description);
    row.dataset.key = key;
    row.tabIndex = 0;
    replace(old?.row, row);
    this.#drawn.set(key, { text, row });
    return row;
  }

  /** Learns the heights of the rows that are drawn; whether each was as supposed. */
  #measure() {
    let isAsSupposed = true;
    for (const [key, { row }] of this.#drawn) {
      const { height } = row.getBoundingClientRect();
      if (Math.abs(height - (this.#heights.get(key) ?? SUPPOSED)) > 0.5) {
        isAsSupposed = false;
      }
      this.#heights.set(key, height);
    }
    if (!isAsSupposed) {
      this.#sumHeights();
    }
    return isAsSupposed;
  }
}

/** Puts a row in the place of its older self, and the focus where it was in that. */
function replace(old, row) {
  if (!old) {
    return;
  }
  const focused = document.activeElement;
  const place = [...old.querySelectorAll(FOCUSABLE)].indexOf(focused);
  const hadFocus = old.contains(focused);
  old.replaceWith(row);
  if (hadFocus) {
    (row.querySelectorAll(FOCUSABLE)[place] ?? row).focus({ preventScroll: true });
  }
}
