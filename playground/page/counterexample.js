// A counterexample: its story, and its picture, whole or one state at a time.

const STORY_LINE = /^line (\d+):/;

export class Counterexample {
  #parts;
  #moved;
  #rows = [];
  #size = { width: 0, height: 0 };
  #at = 0;

  /** `moved` hears of the line whose statement led to the state that is shown, or of 0. */
  constructor(parts, moved) {
    this.#parts = parts;
    this.#moved = moved;
    parts.picture.attachShadow({ mode: "open" });
    parts.back.addEventListener("click", () => this.#show(this.#at - 1));
    parts.on.addEventListener("click", () => this.#show(this.#at + 1));
    parts.slider.addEventListener("input", () => this.#show(Number(parts.slider.value)));
  }

  clear() {
    this.#parts.section.hidden = true;
    this.#moved(0);
  }

  /** Shows that a condition has none. */
  none(condition) {
    this.#fill(condition, "This condition is valid: it has no counterexample.", "");
  }

  show(condition, { story, picture }) {
    this.#fill(condition, story, picture);
  }

  #fill({ number, description }, story, picture) {
    const { section, title, told, controls, slider } = this.#parts;
    section.hidden = false;
    title.textContent = `Condition ${number}: ${description}`;
    told.textContent = story;
    this.#draw(picture);
    controls.hidden = this.#rows.length === 0;
    slider.max = String(this.#rows.length);
    this.#show(0);
  }

  // The picture has style rules of its own, which are kept from the page by a shadow tree.
  #draw(picture) {
    const root = this.#parts.picture.shadowRoot;
    root.innerHTML = picture;
    const svg = root.querySelector("svg");
    if (!svg) {
      this.#rows = [];
      return;
    }
    svg.setAttribute("role", "img");
    svg.setAttribute("aria-label", "The states of the counterexample, one below the other; the story tells them in words");
    svg.style.maxWidth = "100%";
    svg.style.height = "auto";
    this.#size = { width: svg.width.baseVal.value, height: svg.height.baseVal.value };
    const rows = [...svg.querySelectorAll(".row")];
    const tops = rows.map((row) => row.transform.baseVal.consolidate().matrix.f);
    this.#rows = rows.map((row, k) => ({
      statement: row.querySelector(".statement").textContent,
      top: tops[k],
      height: (tops[k + 1] ?? this.#size.height) - tops[k],
    }));
  }

  // 0 is all states; k is the k-th one.
  #show(at) {
    const { back, on, slider, state } = this.#parts;
    this.#at = Math.max(0, Math.min(at, this.#rows.length));
    const row = this.#rows[this.#at - 1];
    this.#crop(row ?? { top: 0, height: this.#size.height });
    back.disabled = this.#at === 0;
    on.disabled = this.#at === this.#rows.length;
    slider.value = String(this.#at);
    state.textContent = row ? `State ${this.#at} of ${this.#rows.length}: ${row.statement}` : "All states";
    slider.setAttribute("aria-valuetext", state.textContent);
    this.#moved(Number(STORY_LINE.exec(row?.statement ?? "")?.[1] ?? 0));
  }

  #crop({ top, height }) {
    const svg = this.#parts.picture.shadowRoot.querySelector("svg");
    if (!svg) return;
    svg.setAttribute("viewBox", `0 ${top} ${this.#size.width} ${height}`);
    svg.setAttribute("height", String(height));
  }
}
