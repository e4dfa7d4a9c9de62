// What is shown. Views listen for its changes.

import { clamp, Scale } from "./format.js";
import { entry, lastUpTo } from "./lookup.js";
import { borrower } from "./status.js";
import { Values } from "./value.js";

class App {
  turn = 0;
  colours = "thread";
  quiz = false;
  guess = null; // a thread
  score = { right: 0, asked: 0 };
  listeners = [];
  moments = new Map(); // the states and values of the latest turns

  begin(run, input, model) {
    Object.assign(this, { run, input, model, view: { from: 0, to: model.end } });
    const lots = ({ first, line }) => run.lines.slice(first, line).filter((words) => words.includes(" lot ")).length;
    const lotteries = run.turns.filter((turn) => turn.line > turn.first);
    this.lotteries = lotteries.map(({ index }) => index);
    this.questions = lotteries.filter((turn) => lots(turn) > 1).map(({ index }) => index);
    this.userOf = usersOf(model);
    this.users = [...new Set(this.userOf.values())].filter(Boolean).sort((a, b) => a - b);
    this.words = {
      name: (number) => this.name(number),
      port: (number) => input.lists.port[number - 1] ?? number,
      mutex: (number) => input.lists.mutex[number - 1] ?? number,
    };
  }

  listen(listener) {
    this.listeners.push(listener);
  }

  /** A change is "turn", "view" or "look". */
  tell(change) {
    for (const listener of this.listeners) listener(change);
  }

  get now() {
    return this.run.turns[this.turn];
  }

  get lottery() {
    return this.run.turns[this.lotteries[lastUpTo(this.lotteries, this.turn)]] ?? null;
  }

  /** Whether this turn's winner isn't to be seen yet. */
  get hides() {
    return this.quiz && this.guess === null && this.questions[lastUpTo(this.questions, this.turn)] === this.turn;
  }

  /** Up to when the run is to be seen: in a quiz to this lottery, or to the next. */
  get known() {
    if (!this.quiz) return Infinity;
    const next = this.hides ? this.turn : this.lotteries[lastUpTo(this.lotteries, this.turn) + 1];
    return this.run.turns[next]?.time ?? Infinity;
  }

  go(turn) {
    const next = clamp(0, turn, this.run.turns.length - 1);
    if (next === this.turn) return;
    this.turn = next;
    this.guess = null;
    const { time } = this.now;
    const { from, to } = this.view;
    if (time < from || time > to) this.look(time - (to - from) / 4, to - from);
    this.tell("turn");
  }

  /** To the next lottery or the one before; in a quiz to one that is a question. */
  skip(direction) {
    const all = this.quiz ? this.questions : this.lotteries;
    const at = lastUpTo(all, this.turn);
    const next = all[direction > 0 ? at + 1 : at - (all[at] === this.turn ? 1 : 0)];
    if (next !== undefined) this.go(next);
  }

  look(from, width) {
    const start = clamp(0, from, this.model.end - width);
    this.view = { from: start, to: start + width };
    this.tell("view");
  }

  scale(width, left, right) {
    return new Scale(this.view.from, this.view.to, left, width - left - right);
  }

  zoom(factor, centre = (this.view.from + this.view.to) / 2) {
    const { end } = this.model;
    const { from, to } = this.view;
    const width = clamp(Math.min(10, end), (to - from) * factor, end);
    this.look(centre - ((centre - from) / (to - from)) * width, width);
  }

  pan(time) {
    this.look(this.view.from + time, this.view.to - this.view.from);
  }

  fit() {
    this.look(0, this.model.end);
  }

  guessed(thread) {
    if (!this.hides || !thread) return;
    this.guess = thread;
    this.score.asked++;
    if (thread === (this.now.to ?? this.now.thread)) this.score.right++;
    this.tell("turn");
  }

  set(option, value) {
    this[option] = value;
    this.guess = null;
    this.tell("look");
  }

  name(number, turn = this.turn) {
    const names = this.model.threads.get(number)?.names;
    return names?.at(turn) ?? names?.values[0] ?? `thread ${number}`;
  }

  colour(number) {
    return this.colours === "thread" ? number - 1 : this.users.indexOf(this.userOf.get(number));
  }

  borrower({ status, turn }) {
    const owners = { get: (mutex) => this.model.owners.get(mutex)?.at(turn) };
    return this.model.lending ? borrower(status, owners) : 0;
  }

  /** The state and the values after a turn; a step on needs them again. */
  moment(turn) {
    if (this.moments.size > 8) this.moments.clear();
    return entry(this.moments, turn, () => {
      const state = this.model.stateAt(turn);
      return { state, values: new Values(state) };
    });
  }
}

/** Each thread's user: a currency that base funds, or 0. */
function usersOf({ tickets, threads }) {
  const parents = new Map();
  for (const ticket of [...tickets.values()].flatMap(({ values }) => values)) {
    const currency = ticket?.target?.currency;
    if (currency !== undefined && !parents.has(currency)) parents.set(currency, ticket.issuer);
  }
  const top = (currency, steps = 0) =>
    (parents.get(currency) && steps < parents.size ? top(parents.get(currency), steps + 1) : currency);
  return new Map([...threads.values()].map(({ number, user }) => [number, top(user ?? 0)]));
}

export const app = new App();
