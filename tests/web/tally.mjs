// Counts what holds and what doesn't, and prints what doesn't.

export class Tally {
  constructor() {
    this.passed = 0;
    this.failed = 0;
    // They are taken out of it and called by themselves.
    this.ok = this.ok.bind(this);
    this.is = this.is.bind(this);
    this.done = this.done.bind(this);
  }

  /** That it is so. */
  ok(name, isSo, told = "") {
    if (process.env.WEB_TIMES) console.log(`${(performance.now() / 1000).toFixed(1)} ${name}`);
    if (isSo) this.passed++;
    else {
      this.failed++;
      console.log(`FAILED ${name}${told === "" ? "" : `: ${typeof told === "string" ? told : JSON.stringify(told)}`}`);
    }
  }

  /** That it is what is wanted. */
  is(name, said, wanted) {
    this.ok(name, said === wanted, `wanted ${JSON.stringify(wanted)}, said ${JSON.stringify(said)}`);
  }

  /** Says how many, and ends with 1 where one doesn't hold. */
  done() {
    console.log(`${this.passed} passed, ${this.failed} failed`);
    process.exit(this.failed ? 1 : 0);
  }
}
