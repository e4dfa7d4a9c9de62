// A thread's place in its script, of which each word, and each mark of a `compute`, costs a tick.

export class Place {
  next = 0; // the next word
  left = 0; // the marks left of a begun `compute`
  loops = []; // where each open one starts, and the times left

  constructor(script) {
    this.script = script;
  }

  get word() {
    return this.script.words[this.next] ?? { word: "exit", argument: null, line: this.script.end };
  }

  /** Passes so many ticks, and gives the line of the last; null if a trap comes before. */
  pass(ticks) {
    let { line } = this.word;
    for (let left = ticks; left > 0; ) {
      ({ line } = this.word);
      const passed = this.step(left);
      if (passed === 0) return null;
      left -= passed;
    }
    return line;
  }

  /** Passes the next word as far as these ticks allow, and gives the ticks used: 0 for a trap. */
  step(ticks) {
    const { word, argument } = this.word;
    if (word === "compute") return this.compute(Number(argument), ticks);
    if (word === "loop") this.loops.push({ start: ++this.next, left: Number(argument) });
    else if (word === "end") this.end();
    else if (word === "set" || word === "add") this.next++;
    else return 0;
    return 1;
  }

  compute(whole, ticks) {
    if (this.left === 0) this.left = whole;
    const passed = Math.min(this.left, ticks);
    this.left -= passed;
    if (this.left === 0) this.next++;
    return passed;
  }

  end() {
    const loop = this.loops.at(-1);
    if (loop && --loop.left > 0) {
      this.next = loop.start;
      return;
    }
    this.loops.pop();
    this.next++;
  }

  /** Makes the trap that comes next, and gives its word. */
  trap() {
    const { word } = this;
    if (this.next < this.script.words.length) this.next++;
    return word;
  }
}
