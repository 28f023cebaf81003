// The compiled verifier as functions over texts. One call at a time; after a trap the next call has a new instance.

const NO_ROOM = 6;
const OUT_OF_MEMORY = 7;
const FIRST_ROOM = 1 << 16;
const WORN_BYTES = 1 << 28;
const ENDED_BYTES = 16;
const MODES = { check: 0, smallest: 1, paths: 2, log: 3, entail: 4, recheck: 5, replay: 6 };

export class OutOfMemory extends Error {
  constructor() {
    super("memory ran out");
  }
}

export class Verifier {
  #module;
  #most;
  #exports = null;

  /** `most` is how many bytes the module's memory may grow to. */
  constructor(module, most) {
    this.#module = module;
    this.#most = most;
  }

  /** What `grass` answers in a mode: its status and its text. `second` is the log or the drawing. */
  answer(mode, text, second = new Uint8Array()) {
    return this.#ask("answer", [MODES[mode], text, second]);
  }

  /** The lines of at most `most` conditions after the first `skip`, and how many conditions there are. */
  conditions(text, skip, most) {
    return this.#ask("conditions", [text, skip, most]);
  }

  /** The smallest counterexample of a condition: its story, and its picture from the first `<` on. */
  shown(text, number) {
    return this.#ask("shown", [text, number]);
  }

  #ask(name, values) {
    try {
      const reply = this.#asked(name, values, FIRST_ROOM);
      return reply.status === NO_ROOM ? this.#asked(name, values, reply.length) : reply;
    } catch (error) {
      this.#exports = null;
      throw error;
    } finally {
      if (this.#exports?.memory.buffer.byteLength > WORN_BYTES) this.#exports = null;
    }
  }

  #asked(name, values, room) {
    this.#exports ??= this.#instance();
    const given = values.map((value) => (typeof value === "number" ? value : this.#copied(value)));
    const into = this.#block(room);
    const ended = this.#block(ENDED_BYTES);
    this.#exports[name](...given.flatMap(passed), into, BigInt(room), ended);
    const reply = this.#read(into, ended);
    const blocks = given.filter((value) => typeof value !== "number").map(({ at }) => at);
    for (const at of [...blocks, into, ended]) this.#exports.give_back(at);
    if (reply.status === OUT_OF_MEMORY) throw new OutOfMemory();
    return reply;
  }

  #instance() {
    const { exports } = new WebAssembly.Instance(this.#module);
    exports.limit(BigInt(this.#most));
    return exports;
  }

  #block(length) {
    const at = this.#exports.room(BigInt(length));
    if (at === 0n) throw new OutOfMemory();
    return at;
  }

  #copied(bytes) {
    const at = this.#block(bytes.length);
    new Uint8Array(this.#exports.memory.buffer, Number(at), bytes.length).set(bytes);
    return { at, length: bytes.length };
  }

  #read(into, ended) {
    const { buffer } = this.#exports.memory;
    const view = new DataView(buffer, Number(ended), ENDED_BYTES);
    const status = view.getUint32(0, true);
    const length = Number(view.getBigUint64(8, true));
    const bytes = new Uint8Array(buffer, Number(into), status === NO_ROOM ? 0 : length);
    return { status, count: view.getUint32(4, true), length, text: new TextDecoder().decode(bytes) };
  }
}

// A number is passed as it is, bytes as their address and their length.
function passed(value) {
  return typeof value === "number" ? [value] : [value.at, BigInt(value.length)];
}
