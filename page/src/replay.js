// Replays a run from its text and its input. What doesn't fit together is a doubt.

import { command } from "./commands.js";
import { Growth, History } from "./history.js";
import { entry } from "./lookup.js";
import { Place } from "./place.js";
import { DEAD, isLive, READY } from "./status.js";
import { follow, TRAPS } from "./traps.js";
import { Values } from "./value.js";

export class Replay {
  threads = new Map();
  currencies = new Map();
  tickets = new Map();
  owners = new Map(); // of mutexes
  slices = []; // the ticks up to each trap or expiry
  draws = []; // the turns of won draws
  commands = []; // their turns
  doubts = [];
  worthTime = new Growth(); // how long a live thread had a value
  baseTime = new Growth(); // how long base had one
  waiters = new Map(); // of each mutex, the oldest first
  numbers = { currencies: new Map(), threads: new Map(), tickets: new Map() }; // by name
  made = 0; // how many of the input's commands are made

  constructor(run, input) {
    Object.assign(this, { run, input });
    this.unit = input.numbers.lottery === 1 ? 1 : 256;
    this.lending = !input.lists.without.includes("lending");
    this.now = this.stateOf(new Map(), new Map(), new Map());
    this.makeCurrency(-1, 0, "base");
    for (const turn of run.turns) this.step(turn);
    this.settle();
    this.end = Math.max(1, this.lastTime());
    for (const thread of this.threads.values()) thread.spans = this.spansOf(thread);
  }

  stateOf(tickets, threads, owners) {
    return { tickets, threads, owners, lending: this.lending, unit: this.unit };
  }

  step(turn) {
    const isTrap = turn.kind in TRAPS;
    if (isTrap || turn.time > this.time) this.settle(); // once for all changes at a time
    this.time = turn.time;
    const thread = this.threads.get(turn.thread);
    if (!isTrap && turn.actor === 0) command(this, turn);
    else if (turn.thread && !thread) this.doubt(turn, `no thread ${turn.thread} was made`);
    else if (turn.kind === "draw") this.draw(turn, thread);
    else if (turn.kind === "wake") this.setStatus(turn, turn.thread, READY);
    else if (isTrap) this.trap(turn, thread);
  }

  doubt(turn, why) {
    this.doubts.push({ turn: turn.index, why });
  }

  status(number) {
    return this.now.threads.get(number) ?? DEAD;
  }

  expect(turn, number, kind) {
    if (this.status(number).kind !== kind) this.doubt(turn, `thread ${number} wasn't ${kind}`);
  }

  setStatus(turn, number, next) {
    const thread = this.threads.get(number);
    if (!thread) return this.doubt(turn, `no thread ${number} was made`);
    const was = this.now.threads.get(number);
    if (!was || !isLive(was) || !isLive(next)) this.isChanged = true;
    this.now.threads.set(number, next);
    thread.statuses.set(turn.index, next);
    if (next === READY && was?.kind !== "ready") thread.readySince = turn.time;
    if (next === DEAD) thread.ended = turn.time;
  }

  setTicket(turn, number, ticket) {
    entry(this.tickets, number, () => new History()).set(turn.index, ticket);
    if (ticket) this.now.tickets.set(number, ticket);
    else this.now.tickets.delete(number);
    this.isChanged = true;
  }

  setOwner(turn, mutex, owner) {
    entry(this.owners, mutex, () => new History()).set(turn.index, owner);
    this.now.owners.set(mutex, owner);
    if (this.waiters.get(mutex)?.length) this.isChanged = true;
  }

  stopWaiting(number) {
    const { kind, mutex } = this.status(number);
    if (kind === "waiting") this.waiters.set(mutex, this.waiters.get(mutex).filter((one) => one !== number));
  }

  makeCurrency(turn, number, name) {
    const fresh = () => ({ number, names: new History(), due: new Growth() });
    entry(this.currencies, number, fresh).names.set(turn, name);
    this.numbers.currencies.set(name, number);
  }

  /** With `reuse` a number's history goes on. */
  makeThread(turn, number, name, script) {
    const earlier = this.threads.get(number);
    const { names, statuses, due } = earlier ?? { names: new History(), statuses: new History(), due: new Growth() };
    this.threads.set(number, {
      number, names, statuses, due, dueBefore: due.at(turn.time), quanta: 0, ticks: 0, refused: 0,
      waits: { ready: [], mutex: [], reply: [] }, place: new Place(this.input.scripts.get(script) ?? { words: [] }),
    });
    names.set(turn.index, name);
    this.numbers.threads.set(name, number);
    this.setStatus(turn, number, READY);
  }

  draw(turn, thread) {
    this.expect(turn, turn.thread, "ready");
    this.draws.push(turn.index);
    thread.quanta++;
    thread.waits.ready.push({ from: thread.readySince, to: turn.time });
    turn.inputLine = thread.place.word.line;
    this.setStatus(turn, turn.thread, { kind: "running", processor: turn.actor });
  }

  trap(turn, thread) {
    if (this.status(turn.thread).processor !== turn.actor) this.doubt(turn, `thread ${turn.thread} didn't run there`);
    const above = entry(this.above, turn.thread, () => this.values.above(turn.thread));
    this.slices.push({ time: turn.time, ticks: turn.ticks, thread: turn.thread, above });
    thread.ticks += turn.ticks;
    const argument = follow(this, turn, thread);
    TRAPS[turn.kind].does(this, turn, thread, argument);
  }

  /** Dues from now on: each live thread's part of the value of all, each currency's part of base's. */
  settle() {
    const { time, isChanged } = this;
    if (!isChanged) return;
    this.isChanged = false;
    this.values = new Values(this.now);
    this.above = new Map(); // the currencies above each thread, while no value changes
    const { threads, currencies } = this.values;
    const worth = (number) => (isLive(this.status(number)) ? threads.get(number) : 0);
    const whole = [...threads.keys()].reduce((sum, number) => sum + worth(number), 0);
    const base = currencies.get(0);
    this.worthTime.turn(time, whole > 0 ? 1 : 0);
    this.baseTime.turn(time, base > 0 ? 1 : 0);
    for (const [number, { due }] of this.threads) due.turn(time, worth(number) / (whole || 1));
    for (const [number, { due }] of this.currencies) due.turn(time, (currencies.get(number) ?? 0) / (base || 1));
  }

  lastTime() {
    const isWhole = this.run.timed && !this.run.report.some(({ kind }) => kind === "endedAt");
    return (isWhole && this.input.numbers.for) || (this.run.turns.at(-1)?.time ?? 0);
  }

  spansOf({ number, statuses }) {
    const times = [...statuses.turns.map((turn) => this.run.turns[turn].time), this.end];
    return statuses.turns
      .map((turn, i) => ({ thread: number, turn, status: statuses.values[i], from: times[i], to: times[i + 1] }))
      .filter(({ from, to, status }) => status && to >= from);
  }

  /** The state after this turn, with names. */
  stateAt(turn) {
    const at = (records, historyOf) => new Map([...records]
      .map(([number, record]) => [number, historyOf(record).at(turn) ?? null])
      .filter(([, value]) => value !== null));
    const own = (history) => history;
    const names = ({ names }) => names;
    return {
      ...this.stateOf(at(this.tickets, own), at(this.threads, ({ statuses }) => statuses), at(this.owners, own)),
      names: at(this.threads, names), currencies: at(this.currencies, names),
    };
  }

  /** A value or a weight as outputs print it: with three digits, the others cut off. */
  printed(value) {
    return this.unit === 1 ? value : Math.floor((value * 1000) / this.unit) / 1000;
  }
}
