// What changes over a run: values by turn, and amounts that grow over time.

import { lastUpTo } from "./lookup.js";

/** Values, each with the turn that made it so. */
export class History {
  turns = [];
  values = [];

  set(turn, value) {
    if (this.turns.at(-1) === turn) this.values.pop();
    else this.turns.push(turn);
    this.values.push(value);
  }

  at(turn) {
    return this.values[lastUpTo(this.turns, turn)];
  }
}

/** An amount that grows by a rate, which changes at times. */
export class Growth {
  times = [0];
  amounts = [0];
  rates = [0];

  turn(time, rate) {
    if (rate === this.rates.at(-1)) return;
    this.amounts.push(this.at(time));
    this.times.push(time);
    this.rates.push(rate);
  }

  at(time) {
    const knot = Math.max(0, lastUpTo(this.times, time));
    return this.amounts[knot] + this.rates[knot] * (time - this.times[knot]);
  }
}
