/* The library or the program in a worker. A call that takes long is ended by ending its worker; the compiled module serves the next one. */
export class Library {
  #module;
  #script;
  #kind;
  #worker;
  #waiting = new Map();
  #number = 0;

  /* `kind` is the class over the module: Pocsag or Program. */
  constructor(module, script, kind) {
    [this.#module, this.#kind] = [module, kind];
    this.#script = URL.createObjectURL(new Blob([script], { type: "text/javascript" }));
    this.#begin();
  }

  #begin() {
    this.#waiting.clear();
    this.#worker = new Worker(this.#script);
    this.#worker.onmessage = ({ data: { number, given, fault, took } }) => {
      const { done, failed } = this.#waiting.get(number);
      this.#waiting.delete(number);
      if (fault) failed(fault);
      else done({ given, took });
    };
    this.#worker.postMessage({ module: this.#module, kind: this.#kind });
  }

  /* What a call gives, and how many milliseconds it took; or its fault. */
  ask(name, ...words) {
    const number = ++this.#number;
    this.#worker.postMessage({ number, name, words });
    return new Promise((done, failed) => this.#waiting.set(number, { done, failed }));
  }

  /* Ends the calls that are not done; what waits for them waits for ever. Returns whether there were some. */
  endCalls() {
    if (this.#waiting.size === 0) return false;
    this.#worker.terminate();
    this.#begin();
    return true;
  }
}
