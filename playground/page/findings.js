// The list of conditions with what is found of each.

const SIGNS = { valid: "✓", refuted: "✗" };

export class Findings {
  #list;
  #chosen;
  #all = [];

  constructor(list, chosen) {
    this.#list = list;
    this.#chosen = chosen;
    list.addEventListener("keydown", (event) => this.#move(event));
  }

  get all() {
    return this.#all;
  }

  get refuted() {
    return this.#all.filter(({ verdict }) => verdict === "refuted");
  }

  clear() {
    this.#all = [];
    this.#list.replaceChildren();
  }

  add(conditions) {
    this.#all.push(...conditions);
    this.#list.append(...conditions.map((condition) => this.#row(condition)));
    this.#reachable();
  }

  /** Shows a condition as the one that is looked at. */
  choose(number) {
    for (const row of this.#list.children) {
      row.firstChild.setAttribute("aria-pressed", String(Number(row.dataset.number) === number));
    }
  }

  #row(condition) {
    const row = document.createElement("li");
    const button = document.createElement("button");
    const sign = document.createElement("span");
    sign.className = "sign";
    sign.setAttribute("aria-hidden", "true");
    sign.textContent = SIGNS[condition.verdict];
    button.type = "button";
    button.tabIndex = -1;
    button.setAttribute("aria-pressed", "false");
    const { number, description, verdict, place } = condition;
    button.append(sign, `${number} ${verdict}: ${description} at ${place.line}:${place.column}`);
    button.addEventListener("click", () => this.#chosen(condition));
    row.className = verdict;
    row.dataset.number = number;
    row.append(button);
    return row;
  }

  // One row at a time is in the order of Tab; the arrows go to the others.
  #reachable() {
    const first = this.#list.querySelector("button");
    if (first && !this.#list.querySelector("button[tabindex='0']")) first.tabIndex = 0;
  }

  #move(event) {
    const step = { ArrowDown: 1, ArrowUp: -1 }[event.key];
    const here = event.target.closest("li");
    const next = step > 0 ? here?.nextElementSibling : here?.previousElementSibling;
    if (!step || !next) return;
    event.preventDefault();
    here.firstChild.tabIndex = -1;
    next.firstChild.tabIndex = 0;
    next.firstChild.focus();
  }
}
