/* Counts what passed and what failed, and shows what failed. */
export class Tally {
  #passed = 0;
  #failed = 0;

  check(name, holds, told = "") {
    if (holds) this.#passed++;
    else {
      this.#failed++;
      console.log(`FAILED ${name}: ${typeof told === "string" ? told : JSON.stringify(told, (_, it) => (typeof it === "bigint" ? String(it) : it))}`.slice(0, 1_500));
    }
  }

  is(name, given, wanted) {
    const [a, b] = [given, wanted].map((it) => JSON.stringify(it));
    this.check(name, a === b, `${a} is not ${b}`);
  }

  /* What a call throws, or what it gives. */
  attempt(call) {
    try {
      return call();
    } catch (error) {
      return error;
    }
  }

  end() {
    console.log(`${this.#passed} passed, ${this.#failed} failed`);
    process.exitCode = this.#failed ? 1 : 0;
  }
}
