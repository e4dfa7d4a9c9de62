// Sums of parts over bins of equal time.

import { clamp } from "./format.js";

export class Sums {
  constructor(count, per) {
    this.per = per;
    this.bins = new Float64Array(count);
  }

  add(time, part) {
    this.bins[clamp(0, Math.floor(time / this.per), this.bins.length - 1)] += part;
  }

  /** Adds a part evenly over a time. */
  spread(from, to, part) {
    const each = part / (to - from);
    let time = Math.max(0, from);
    for (let bin = Math.floor(time / this.per); time < to && bin < this.bins.length; bin++) {
      const until = Math.min(to, (bin + 1) * this.per);
      this.bins[bin] += Math.max(0, until - time) * each;
      time = until;
    }
  }

  /** What was added before this time; nothing may be added later. */
  before(time) {
    this.starts ??= startsOf(this.bins);
    const place = clamp(0, time / this.per, this.bins.length);
    const bin = Math.floor(place);
    return this.starts[bin] + (this.bins[bin] ?? 0) * (place - bin);
  }
}

function startsOf(bins) {
  const starts = new Float64Array(bins.length + 1);
  bins.forEach((part, i) => (starts[i + 1] = starts[i] + part));
  return starts;
}
