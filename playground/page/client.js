// The page's side of the worker. A new run ends an older one: a worker that is busy is ended, and another one started.

export class Client {
  #source;
  #start;
  #worker = null;
  #next = 1;
  #waiting = new Map();

  constructor(source, module, most) {
    this.#source = source;
    this.#start = { kind: "start", module, most };
    this.#renew();
  }

  get isBusy() {
    return this.#waiting.size > 0;
  }

  /** Asks the worker. `told` takes what it says before the reply. */
  ask(request, told = () => {}) {
    const id = this.#next++;
    return new Promise((resolve, reject) => {
      this.#waiting.set(id, { told, resolve, reject });
      this.#worker.postMessage({ id, ...request });
    });
  }

  /** Ends whatever runs. Nobody hears of it again. */
  cancel() {
    if (!this.isBusy) return;
    this.#worker.terminate();
    this.#waiting.clear();
    this.#renew();
  }

  #renew() {
    this.#worker = new Worker(this.#source);
    this.#worker.addEventListener("message", ({ data }) => this.#take(data));
    this.#worker.postMessage({ id: 0, ...this.#start });
  }

  #take(data) {
    const asked = this.#waiting.get(data.id);
    if (!asked) return;
    if (data.kind !== "done" && data.kind !== "failed") return asked.told(data);
    this.#waiting.delete(data.id);
    return data.kind === "done" ? asked.resolve(data.reply) : asked.reject(new Error(data.reason));
  }
}
