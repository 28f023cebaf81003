// A textarea with an overlay below it that has the colours and the marks, and a column of line numbers.
import { markedPieces } from "./highlight.js";
import { rangeAt } from "./places.js";

const MOST_COLOURED = 100000;

export class Editor {
  #area;
  #overlay;
  #lines;
  #marks = [];
  #active = 0;

  constructor({ area, overlay, lines }, changed) {
    this.#area = area;
    this.#overlay = overlay;
    this.#lines = lines;
    area.addEventListener("input", () => {
      this.#marks = [];
      this.#active = 0;
      this.#draw();
      changed();
    });
    area.addEventListener("scroll", () => this.#scroll());
    area.addEventListener("keydown", (event) => this.#indent(event));
  }

  get text() {
    return this.#area.value;
  }

  set text(text) {
    this.#area.value = text;
    this.#marks = [];
    this.#active = 0;
    this.#area.scrollTop = 0;
    this.#draw();
  }

  /** Marks the words at some places: { place, kind }. Of several marks at a place the first one counts. */
  mark(marks) {
    const first = new Map();
    for (const { place, kind } of marks) {
      const range = rangeAt(this.text, place);
      if (!first.has(range.from)) first.set(range.from, { ...range, kind, line: place.line });
    }
    this.#marks = [...first.values()];
    this.#draw();
  }

  /** Selects the word at a place. */
  select(place) {
    const { from, to } = rangeAt(this.text, place);
    this.#area.focus();
    this.#area.setSelectionRange(from, to);
    this.#reveal(place.line);
  }

  /** Points at a line without moving the caret; 0 points nowhere. */
  point(line) {
    this.#active = line;
    this.#drawLines();
    if (line) this.#reveal(line);
  }

  #reveal(line) {
    const height = parseFloat(getComputedStyle(this.#area).lineHeight);
    const top = (line - 1) * height;
    const { scrollTop, clientHeight } = this.#area;
    if (top < scrollTop || top + 2 * height > scrollTop + clientHeight) this.#area.scrollTop = top - clientHeight / 2;
    this.#scroll();
  }

  #draw() {
    const { text } = this;
    this.#overlay.replaceChildren(...(text.length > MOST_COLOURED ? [text] : this.#coloured(text)), "\n");
    this.#drawLines();
    this.#scroll();
  }

  #coloured(text) {
    return markedPieces(text, this.#marks).map(({ from, to, kind, mark }) => {
      const piece = text.slice(from, to);
      if (!kind && !mark) return piece;
      const span = document.createElement("span");
      span.className = [kind, mark && `mark ${mark}`].filter(Boolean).join(" ");
      span.textContent = piece;
      return span;
    });
  }

  #drawLines() {
    const kinds = new Map(this.#marks.map(({ line, kind }) => [line, kind]));
    for (const { line, kind } of this.#marks) if (kind !== "valid") kinds.set(line, kind);
    const count = this.text.split("\n").length;
    const numbers = Array.from({ length: count }, (_, k) => this.#number(k + 1, kinds.get(k + 1)));
    this.#lines.replaceChildren(...numbers);
  }

  #number(line, kind) {
    const number = document.createElement("span");
    number.textContent = line;
    number.className = [kind, line === this.#active && "active"].filter(Boolean).join(" ");
    return number;
  }

  #scroll() {
    const { scrollTop, scrollLeft } = this.#area;
    this.#lines.scrollTop = scrollTop;
    this.#overlay.style.transform = `translate(${-scrollLeft}px, ${-scrollTop}px)`;
  }

  // Tab writes two spaces; after Escape it moves the focus on, so that nobody is caught here.
  #indent(event) {
    if (event.key === "Escape") this.#area.dataset.leaving = "yes";
    if (event.key !== "Tab" || event.shiftKey || this.#area.dataset.leaving) {
      if (event.key !== "Escape") delete this.#area.dataset.leaving;
      return;
    }
    event.preventDefault();
    this.#area.setRangeText("  ", this.#area.selectionStart, this.#area.selectionEnd, "end");
    this.#area.dispatchEvent(new Event("input"));
  }
}
