// Reads the text of `lot_sim explain --funding`: a list of turns, and the report behind it.
//
// The forms are those of docs/FORMATS.md. `{name:W}` is a field of a sort, N if none is told; `[..]` is optional.

import { listAt } from "./lookup.js";
import { TRAPS } from "./traps.js";

const SORTS = {
  N: "\\d+",
  D: "\\d+(?:\\.\\d{1,3})?", // a decimal
  W: "[a-z][a-z0-9_-]*", // a word
  R: "[A-Za-z]+", // a reason for a refusal
  E: " ends", // the mark of a used-up quantum
  V: " wins", // the mark of a winner
  T: "-|[a-z][a-z0-9_-]*", // the target of a listed ticket
  S: "ready|running \\d+ used \\d+|receiving \\d+|queued \\d+|served \\d+|waiting \\d+|asleep|dead",
};

/** A function that reads a line of this form to an object of its fields, or to null. */
function reader(form, kind) {
  const sorts = {};
  const pattern = form
    .replace(/[.*+?^$()|\\]/g, "\\$&")
    .replace(/\[/g, "(?:")
    .replace(/\]/g, ")?")
    .replace(/\{(\w+)(?::(\w))?\}/g, (_, name, sort = "N") => {
      sorts[name] = sort;
      return `(?<${name}>${SORTS[sort]})`;
    });
  const whole = new RegExp(`^${pattern}$`);
  return (line) => {
    const found = whole.exec(line);
    if (!found) return null;
    const fields = { kind };
    for (const name in sorts) {
      const text = found.groups[name];
      if (text !== undefined) fields[name] = "ND".includes(sorts[name]) ? Number(text) : text;
    }
    return fields;
  };
}

/** The same for any of these forms. */
function readerOf(forms) {
  const readers = new Map();
  for (const [kind, form] of forms) listAt(readers, form.split(/[ []/, 1)[0]).push(reader(form, kind));
  return (line) => {
    for (const read of readers.get(line.split(" ", 1)[0]) ?? []) {
      const fields = read(line);
      if (fields) return fields;
    }
    return null;
  };
}

const trap = (kind, form) => [kind, `thread {thread} ticks {ticks} ${form}`];

/** A turn's line, behind the time and the actor. */
const readTurn = readerOf([
  ["draw", "draw {number:D} of {total:D} thread {thread}[ got {got}]"],
  ["idle", "idle"],
  ...Object.entries(TRAPS).flatMap(([kind, { forms }]) => forms.map((form) => trap(kind, form))),
  ["wake", "wake thread {thread}"],
  ["madeTicket", "ticket {ticket}"],
  ["madeCurrency", "currency {currency}"],
  ["madeThread", "thread {thread}"],
  ["funded", "funded {ticket} {thread}"],
  ["done", "done"],
  ["refused", "refused {code} {reason:R}"],
  ["lstkt", "lstkt {rows}"],
  ["lscur", "lscur {rows}"],
  ["lsthr", "lsthr {rows}"],
]);

const funds = (kind, target) =>
  [kind, `funds ${target} {name:W} ticket {ticket} amount {amount} of {issuer:W} value {value:D}`];

/** The lines before a lottery. */
const readBefore = readerOf([
  funds("fundsThread", "thread {thread}"),
  funds("fundsCurrency", "currency {currency}"),
  ["currency", "currency {currency} {name:W} value {value:D} active {active}"],
  ["lot", "lot thread {thread} {name:W} weight {weight:D}[ = value {value:D} x {quantum} / {used}]"
    + " from {from:D} below {below:D}[{wins:V}]"],
  ["waiter", "lot waiter {thread} {name:W} value {value:D} from {from:D} below {below:D}[{wins:V}]"],
  ["lent", "lent thread {thread} {name:W} value {value:D} to thread {to}"],
]);

const readListed = readerOf([
  ["ticket", "ticket {ticket} amount {amount} in {issuer:W} funds {target:T} {state:W} value {value:D}"],
  ["currency", "currency {currency} {name:W} backing {backing} issued {issued} active {active} value {value:D}"],
  ["thread", "thread {thread} {name:W} {status:S} value {value:D} weight {weight:D} quanta {quanta} ticks {ticks}"],
]);

const waits = (kind) => `[ ${kind} waits {${kind}Waits} mean {${kind}Mean:D} longest {${kind}Longest}]`;
const readReport = readerOf([
  ["thread", "thread {thread} {name:W} quanta {quanta} ticks {ticks}"
    + "[ share {share:D}% due {due:D}% value {value:D}%]" + waits("ready") + waits("mutex") + waits("reply")
    + "[ refused {refused}][ made {made}][ ended {ended}]"],
  ["currency", "currency {currency} {name:W} ticks {ticks} share {share:D}% due {due:D}%"],
  ["processor", "processor {processor} quanta {quanta} idle {idle} ticks {ticks}[ unused {unused}]"],
  ["total", "total turns {turns} quanta {quanta} ticks {ticks}[ refused {refused} left {left}]"
    + "[ ended {ended} mean {mean:D} longest {longest}]"],
  ["endedAt", "ended at {time} of {span}: {turns} turns made"],
]);
const readRefused = readerOf([["refusedInput", "refused line {line} {code} {reason:R}"]]);

class Run {
  turns = []; // with the indices of their first lines, their own, and the last of their listings
  report = [];
  errors = []; // the lines of no form
  refusedInput = null;
  timed = false; // in formats 1 and 2 a turn's time is its place among the turns

  constructor(text) {
    this.lines = text.replace(/\n+$/, "").split("\n");
    this.refusedInput = this.lines.length === 1 ? readRefused(this.lines[0]) : null;
    if (this.refusedInput) return;
    this.timed = /^\d+ \d+ /.test(this.lines[0]) || / refused \d+ left \d+/.test(this.lines.at(-1));
    this.head = this.timed ? /^(\d+) (\d+) / : /^(\d+) /;
    this.readReport(this.readTurns() + 1);
  }

  fail(line, why) {
    this.errors.push({ line: line + 1, text: this.lines[line], why });
  }

  readTurns() {
    let first = 0;
    let at = 0;
    for (; at < this.lines.length && this.lines[at] !== "report"; at++) {
      const head = this.head.exec(this.lines[at]);
      const rest = head && this.lines[at].slice(head[0].length);
      if (head && readBefore(rest)) continue;
      const turn = head && readTurn(rest);
      if (turn) at = this.add(turn, head, first, at);
      else this.fail(at, head ? "it has none of the forms of a turn" : "no time and actor begin it");
      first = at + 1;
    }
    if (this.lines[at] !== "report") this.fail(this.lines.length - 1, "the text ends without a report");
    return at;
  }

  add(turn, head, first, line) {
    const index = this.turns.length;
    const time = this.timed ? Number(head[1]) : index;
    if (index && time < this.turns[index - 1].time) this.fail(line, "its time is before that of the turn before it");
    const last = line + (turn.rows ?? 0);
    for (let row = line + 1; row <= last; row++) if (!this.row(row)) this.fail(row, "it is no line of a listing");
    this.turns.push(Object.assign(turn, { index, actor: Number(head[this.timed ? 2 : 1]), time, first, line, last }));
    return last;
  }

  row(line) {
    const text = this.lines[line] ?? "";
    return readListed(this.timed ? text.replace(/^\d+ /, "") : text);
  }

  readReport(first) {
    for (let line = first; line < this.lines.length; line++) {
      const row = readReport(this.lines[line]);
      if (row) this.report.push({ ...row, text: this.lines[line] });
      else this.fail(line, "it is no line of a report");
    }
  }
}

export const parseRun = (text) => new Run(text);

/** The lines before this turn's line, each as its fields. */
export function linesBefore(run, turn) {
  return run.lines.slice(turn.first, turn.line).map((line) => readBefore(line.replace(run.head, "")));
}

