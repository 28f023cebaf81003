// The page: what is typed is checked after a pause, and what is found is shown as it comes.
import { Client } from "./client.js";
import { Counterexample } from "./counterexample.js";
import { Editor } from "./editor.js";
import { offer, receive } from "./files.js";
import { Findings } from "./findings.js";
import { conditionsIn, placeIn } from "./places.js";
import { packed, unpacked } from "./sharing.js";

const PAUSE_MS = 300;
const MOST_BYTES = 1 << 30;
const VERIFIED = 0;
const REFUTED = 1;

const byId = (id) => document.getElementById(id);
const bytesOf = (text) => new TextEncoder().encode(text);
const firstLine = (text) => text.split("\n", 1)[0];

class Page {
  #client;
  #programs;
  #editor = new Editor({ area: byId("text"), overlay: byId("overlay"), lines: byId("lines") }, () => this.#soon());
  #findings = new Findings(byId("conditions"), (condition) => this.#look(condition));
  #counterexample = new Counterexample(partsOfCounterexample(), (line) => this.#editor.point(line));
  #timer = 0;
  #run = 0;

  constructor(client, programs) {
    this.#client = client;
    this.#programs = programs;
    this.#fillPrograms();
    byId("stop").addEventListener("click", () => this.#stop());
    byId("share").addEventListener("click", () => this.#share());
    byId("log").addEventListener("click", () => this.#saveLog());
    receive(byId("recheck"), byId("recheck-file"), (name, log) => this.#recheck(name, log));
    window.addEventListener("hashchange", () => this.open());
  }

  /** Opens the program of the address, or the first one. */
  async open() {
    const text = await unpacked(location.hash.slice(1));
    this.#take(text || this.#programs[0].text);
  }

  #fillPrograms() {
    const menu = byId("programs");
    const groups = Map.groupBy(this.#programs.keys(), (place) => this.#programs[place].group);
    for (const [label, places] of groups) {
      const group = document.createElement("optgroup");
      group.label = label;
      group.append(...[...places].map((place) => new Option(this.#programs[place].name, place)));
      menu.append(group);
    }
    menu.addEventListener("change", () => menu.value && this.#take(this.#programs[menu.value].text));
  }

  #take(text) {
    this.#editor.text = text;
    this.#check();
  }

  #soon() {
    clearTimeout(this.#timer);
    this.#timer = setTimeout(() => this.#check(), PAUSE_MS);
  }

  #clear() {
    clearTimeout(this.#timer);
    this.#client.cancel();
    this.#findings.clear();
    this.#counterexample.clear();
    byId("log").disabled = true;
    byId("rechecked").textContent = "";
    delete document.body.dataset.settled;
  }

  async #check() {
    this.#clear();
    const run = ++this.#run;
    const text = bytesOf(this.#editor.text);
    byId("stop").disabled = false;
    this.#say("checking…", "");
    try {
      const reply = await this.#client.ask({ kind: "run", text }, (told) => this.#hear(told));
      this.#end(reply);
    } catch (error) {
      this.#say(`No verdict: ${error.message}.`, "refused");
    }
    byId("stop").disabled = true;
    document.body.dataset.settled = String(run);
  }

  #hear({ kind, count, lines }) {
    if (kind === "counted") {
      byId("progress").max = Math.max(count, 1);
    } else {
      this.#findings.add(conditionsIn(lines));
      this.#markFindings();
    }
    const settled = this.#findings.all.length;
    byId("progress").value = settled;
    const refuted = this.#findings.refuted.length;
    this.#say(`${settled} of ${byId("progress").max} settled, ${refuted} refuted`, refuted ? "refuted" : "");
  }

  #end({ status, text, cause }) {
    const verdict = firstLine(text);
    if (cause === undefined) {
      this.#say(verdict, status === VERIFIED ? "verified" : "refuted");
      byId("log").disabled = status !== VERIFIED;
      if (status === REFUTED) this.#look(this.#findings.refuted[0], false);
    } else {
      this.#say(cause && !verdict.includes(cause) ? `${verdict} (${cause})` : verdict, "refused");
      const place = placeIn(text, this.#editor.text);
      if (place) this.#editor.mark([{ place, kind: "refused" }]);
    }
  }

  // Marks of refuted conditions come first, so that they count where several conditions have one place.
  #markFindings() {
    const kindOf = ({ place, verdict }) => ({ place, kind: verdict });
    const valid = this.#findings.all.filter(({ verdict }) => verdict === "valid");
    this.#editor.mark([...this.#findings.refuted, ...valid].map(kindOf));
  }

  async #look(condition, isAsked = true) {
    if (!condition) return;
    this.#findings.choose(condition.number);
    if (isAsked) this.#editor.select(condition.place);
    if (condition.verdict === "valid") {
      this.#counterexample.none(condition);
      return;
    }
    const text = bytesOf(this.#editor.text);
    const run = this.#run;
    const shown = await this.#client.ask({ kind: "shown", text, number: condition.number });
    if (run === this.#run) this.#counterexample.show(condition, shown);
    document.body.dataset.shown = String(condition.number);
  }

  #stop() {
    this.#client.cancel();
    this.#run++;
    byId("stop").disabled = true;
    this.#say("Stopped.", "");
    document.body.dataset.settled = String(this.#run);
  }

  async #share() {
    history.replaceState(null, "", `#${await packed(this.#editor.text)}`);
    try {
      await navigator.clipboard.writeText(location.href);
      byId("shared").textContent = "The address was copied.";
    } catch {
      byId("shared").textContent = "The address has the program now: copy it from the browser's bar.";
    }
  }

  async #saveLog() {
    const { text } = await this.#client.ask({ kind: "log", text: bytesOf(this.#editor.text) });
    offer("program.log", text);
  }

  async #recheck(name, log) {
    const reply = await this.#client.ask({ kind: "recheck", text: bytesOf(this.#editor.text), log });
    byId("rechecked").textContent = `${name}: ${firstLine(reply.text)}`;
  }

  #say(words, kind) {
    byId("verdict").textContent = words;
    byId("verdict").className = kind;
  }
}

function partsOfCounterexample() {
  const names = ["section", "title", "told", "picture", "controls", "back", "on", "slider", "state"];
  return Object.fromEntries(names.map((name) => [name, byId(`example-${name}`)]));
}

// The module and the programs stand in the page itself: nothing is fetched.
async function start() {
  const packedModule = byId("module").textContent.trim();
  const bytes = Uint8Array.from(atob(packedModule), (letter) => letter.charCodeAt(0));
  const module = await WebAssembly.compile(bytes);
  const worker = new Blob([byId("worker").textContent], { type: "text/javascript" });
  const client = new Client(URL.createObjectURL(worker), module, MOST_BYTES);
  await new Page(client, JSON.parse(byId("texts").textContent)).open();
}

start().catch((error) => {
  byId("verdict").textContent = `This browser can't run the verifier: ${error.message}`;
  document.body.dataset.settled = "none";
});
