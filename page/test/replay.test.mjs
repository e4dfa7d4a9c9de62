// The replay of each example against what its text tells: values, lots, lends, listings and the report.

import assert from "node:assert/strict";
import test from "node:test";
import { parseInput } from "../src/input.js";
import { linesBefore, parseRun } from "../src/parse.js";
import { Replay } from "../src/replay.js";
import { isLive } from "../src/status.js";
import { Values } from "../src/value.js";
import { countDraws, countTicks, shareAt } from "../src/views/figures.js";
import { example, examples } from "./runs.mjs";

const near = (actual, expected, what) =>
  assert.ok(Math.abs(actual - expected) <= 0.0011, `${what}: ${actual}, and the text says ${expected}`);
const sorted = (numbers) => [...numbers].sort((a, b) => a - b);
const sum = (numbers) => numbers.reduce((whole, one) => whole + one, 0);

/** A status as a listing prints it, but for a running thread's used ticks. */
function statusText({ kind, processor, port, server, mutex }) {
  const about = processor ?? port ?? server ?? mutex;
  return about === undefined ? kind : `${kind} ${about}`;
}

/** Compares a line before a lottery with the state and the values after the turn before. */
const LINES = {
  fundsThread(line, { model, state, values }) {
    assert.equal(model.printed(values.tickets.get(line.ticket)), line.value);
    assert.equal(state.tickets.get(line.ticket).amount, line.amount);
  },
  currency(line, { model, state, values }) {
    assert.equal(model.printed(values.currencies.get(line.currency)), line.value);
    assert.equal(values.active.get(line.currency), line.active);
    assert.equal(state.currencies.get(line.currency), line.name);
  },
  lot(line, { model, state, values }) {
    const value = model.printed(values.threads.get(line.thread));
    // Formats 1 and 2 don't tell the value of a compensated thread.
    if (model.input.numbers.lottery === 3) assert.equal(value, line.value ?? line.weight);
    else assert.ok(value <= line.weight);
    assert.equal(state.threads.get(line.thread).kind, "ready");
    assert.equal(state.names.get(line.thread), line.name);
  },
  waiter(line, { model, state, values }) {
    assert.equal(model.printed(values.threads.get(line.thread)), line.value);
    assert.equal(state.threads.get(line.thread).kind, "waiting");
  },
  lent(line, { model, values }) {
    assert.equal(model.printed(values.threads.get(line.thread)), line.value);
    assert.equal(values.lends.get(line.thread), line.to);
  },
};
LINES.fundsCurrency = LINES.fundsThread;

/** Whether the lines before a draw leave out a lend or a ready thread. */
function checkWhole(lines, { state, values }) {
  const lent = new Map(lines.filter(({ kind }) => kind === "lent").map(({ thread, to }) => [thread, to]));
  for (const [thread, to] of values.lends) if (values.threads.get(thread) > 0) assert.equal(lent.get(thread), to);
  const ready = sorted([...state.threads.keys()].filter((number) => state.threads.get(number).kind === "ready"));
  assert.deepEqual(lines.filter(({ kind }) => kind === "lot").map(({ thread }) => thread), ready);
}

function checkValues(run, model) {
  for (const turn of run.turns) {
    const lines = linesBefore(run, turn);
    if (!lines.length) continue;
    const state = model.stateAt(turn.index - 1);
    const at = { model, state, values: new Values(state) };
    for (const line of lines) LINES[line.kind](line, at);
    if (turn.kind === "draw" && model.input.numbers.lottery === 3) checkWhole(lines, at);
  }
}

const LISTINGS = {
  lsthr(rows, { model, state, values }) {
    assert.deepEqual(rows.map(({ thread }) => thread), sorted(state.threads.keys()));
    for (const row of rows) {
      assert.equal(statusText(state.threads.get(row.thread)), row.status.replace(/ used \d+/, ""));
      assert.equal(state.names.get(row.thread), row.name);
      assert.equal(Math.floor(model.printed(values.threads.get(row.thread))), Math.floor(row.value));
    }
  },
  lstkt(rows, { state }) {
    assert.equal(rows.length, state.tickets.size);
    for (const row of rows) {
      const { amount, issuer, target } = state.tickets.get(row.ticket);
      assert.equal(amount, row.amount);
      assert.equal(state.currencies.get(issuer), row.issuer);
      const name = state.names.get(target?.thread) ?? state.currencies.get(target?.currency) ?? "-";
      assert.equal(name, row.target);
    }
  },
  lscur(rows, { state, values }) {
    assert.equal(rows.length, state.currencies.size);
    for (const row of rows) {
      assert.equal(state.currencies.get(row.currency), row.name);
      assert.equal(values.active.get(row.currency) ?? 0, row.active);
    }
  },
};

function checkListings(run, model) {
  for (const turn of run.turns) {
    if (!LISTINGS[turn.kind]) continue;
    const state = model.stateAt(turn.index);
    const rows = Array.from({ length: turn.rows }, (_, i) => run.row(turn.line + 1 + i));
    LISTINGS[turn.kind](rows, { model, state, values: new Values(state) });
  }
}

function checkWaits(row, thread) {
  for (const sort of ["ready", "mutex", "reply"]) {
    const waits = thread.waits[sort].map(({ from, to }) => to - from);
    assert.equal(waits.length, row[`${sort}Waits`] ?? 0);
    if (!waits.length) continue;
    assert.equal(Math.max(...waits), row[`${sort}Longest`]);
    near(sum(waits) / waits.length, row[`${sort}Mean`], `${sort} waits of ${row.name}`);
  }
}

function checkThread(run, model, row, total, values) {
  const thread = model.threads.get(row.thread);
  assert.equal(thread.quanta, row.quanta);
  assert.equal(thread.ticks, row.ticks);
  assert.equal(thread.refused, row.refused ?? 0);
  if (!run.timed) return;
  const time = run.turns.at(-1).time;
  const lives = (number) => isLive(model.status(number));
  const worth = sum([...values.threads].map(([number, value]) => (lives(number) ? value : 0)));
  const due = (thread.due.at(time) - thread.dueBefore) / (model.worthTime.at(time) || 1);
  near((thread.ticks * 100) / (total.ticks || 1), row.share, `share of ${row.name}`);
  near(due * 100, row.due, `due of ${row.name}`);
  near(lives(row.thread) && worth ? (values.threads.get(row.thread) * 100) / worth : 0, row.value, `value of ${row.name}`);
  assert.equal(thread.ended, row.ended);
  checkWaits(row, thread);
}

function checkCurrency(run, model, row) {
  const time = run.turns.at(-1).time;
  assert.equal(sum(model.slices.map(({ ticks, above }) => (above.has(row.currency) ? ticks : 0))), row.ticks);
  const due = model.currencies.get(row.currency).due.at(time) / (model.baseTime.at(time) || 1);
  near(due * 100, row.due, `due of ${row.name}`);
}

function checkReport(run, model) {
  const rows = (kind) => run.report.filter((row) => row.kind === kind);
  const [total] = rows("total");
  assert.equal(model.draws.length, total.quanta);
  assert.equal(sum(model.slices.map(({ ticks }) => ticks)), total.ticks);
  assert.deepEqual(rows("thread").map(({ thread }) => thread), sorted(model.now.threads.keys()));
  const values = new Values(model.stateAt(run.turns.length - 1));
  for (const row of rows("thread")) checkThread(run, model, row, total, values);
  for (const row of rows("currency")) checkCurrency(run, model, row);
}

/** Compares what the page plots at the run's end with the report, whose dues end with the last turn. */
function checkShares(run, model) {
  for (const kind of ["thread", "currency"]) {
    const counted = countTicks(run, model, kind === "thread");
    for (const row of run.report.filter((one) => one.kind === kind && one.share !== undefined)) {
      if (model.threads.get(row.thread)?.dueBefore) continue; // the plot has the number's earlier thread too
      const line = counted.lines.find(({ number }) => number === row[kind]);
      near(shareAt(counted, line, model.end, 0).share * 100, row.share, `plotted share of ${row.name}`);
      near(shareAt(counted, line, run.turns.at(-1).time, 0).due * 100, row.due, `plotted due of ${row.name}`);
    }
  }
  const { lines, whole } = countDraws(run, model);
  assert.equal(whole.before(model.end), model.draws.length);
  near(sum(lines.map(({ chance }) => chance.before(model.end))), model.draws.length, "all chances");
}

for (const { name, input: source, text } of examples) {
  const run = parseRun(text);
  if (run.refusedInput) continue;
  const input = parseInput(source.toString("latin1"));
  const model = new Replay(run, input);
  test(`${name}: the replay is without doubt`, () => assert.deepEqual(model.doubts, []));
  test(`${name}: values before each lottery`, () => checkValues(run, model));
  test(`${name}: listings`, () => checkListings(run, model));
  test(`${name}: the report's figures`, () => checkReport(run, model));
  test(`${name}: shares over time`, () => checkShares(run, model));
  test(`${name}: each turn of a thread or of the console has its line of the input`, () => {
    for (const turn of run.turns) {
      if ((turn.ticks === undefined && turn.actor !== 0) || turn.code === 41) continue;
      assert.ok(turn.inputLine >= 0 && turn.inputLine < input.lines.length, JSON.stringify(turn));
    }
  });
}

/** The doubts about the server's example with this change of its text. */
function doubtsWith(pattern, replacement) {
  const { input, text } = example("tutorial/server.lot");
  const changed = text.replace(pattern, replacement);
  assert.notEqual(changed, text);
  return new Replay(parseRun(changed), parseInput(input.toString())).doubts.map(({ why }) => why);
}

test("a winner that wasn't made or wasn't ready is doubted", () => {
  assert.equal(doubtsWith("0 1 draw 0.992 of 1 thread 1", "0 1 draw 0.992 of 1 thread 9")[0], "no thread 9 was made");
  assert.equal(doubtsWith("2 1 draw 223.921 of 400 thread 2", "2 1 draw 223.921 of 400 thread 1")[0],
    "thread 1 wasn't ready");
});

test("a thread that ran without a draw is doubted", () => {
  assert.equal(doubtsWith("2 1 draw 223.921 of 400 thread 2\n", "")[0], "thread 2 didn't run there");
});

test("a trap that the script doesn't have is doubted", () => {
  assert.ok(doubtsWith(/call 1 (served by \d|queued)/, "yield").some((why) => /its script has call here/.test(why)));
});

test("a reply to a thread that wasn't served is doubted", () => {
  assert.ok(doubtsWith(/reply client \d/, "reply client 1").some((why) => /wasn't served/.test(why)));
});

test("a text with a line left out, or of another input, fails nothing", () => {
  const small = examples.filter(({ text }) => text.length < 100000 && !text.startsWith("refused"));
  small.forEach(({ text, input }, i) => {
    const lines = text.split("\n");
    const step = Math.ceil(lines.length / 20);
    const texts = lines.flatMap((_, line) => (line % step ? [] : [lines.toSpliced(line, 1).join("\n")]));
    for (const one of [small[(i + 1) % small.length].text, ...texts]) {
      new Replay(parseRun(one), parseInput(input.toString("latin1")));
    }
  });
});
