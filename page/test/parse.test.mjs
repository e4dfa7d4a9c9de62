// The reading of a run's text.

import assert from "node:assert/strict";
import test from "node:test";
import { linesBefore, parseRun } from "../src/parse.js";
import { examples } from "./runs.mjs";

for (const { name, text } of examples) {
  test(`each line of ${name} is understood`, () => {
    const run = parseRun(text);
    assert.deepEqual(run.errors, []);
    if (run.refusedInput) return;
    const { turns } = run.report.find(({ kind }) => kind === "total");
    assert.equal(run.turns.filter(({ code, actor }) => code !== 41 || actor !== 0).length, turns);
    for (const turn of run.turns) {
      const before = linesBefore(run, turn);
      assert.ok(!before.includes(null));
      if (before.length) assert.ok(turn.kind === "draw" || turn.kind === "drawn", turn.kind);
    }
  });
}

test("a line of no form is told with its number", () => {
  const { errors } = parseRun("0 0 funded 1 1\n0 1 drow 1 of 2 thread 1\nreport\nthread 1\n");
  assert.deepEqual(errors.map(({ line }) => line), [2, 4]);
});

test("a line without a time is told", () => {
  assert.match(parseRun("0 0 funded 1 1\nidle\nreport\n").errors[0].why, /no time and actor/);
});

test("a row of a listing that is none is told", () => {
  const { errors } = parseRun("0 0 funded 1 1\n0 0 lsthr 2\n0 thread 1 a ready value 1 weight 1 quanta 0 ticks 0\n");
  assert.deepEqual(errors.map(({ why }) => why), ["it is no line of a listing", "the text ends without a report"]);
});

test("a text that ends too early is told", () => {
  assert.match(parseRun("0 0 funded 1 1\n0 1 idle\n").errors[0].why, /without a report/);
  assert.equal(parseRun("").errors.length, 2);
});

test("a time that falls is told", () => {
  assert.match(parseRun("5 0 funded 1 1\n3 1 idle\nreport\n").errors[0].why, /before that of the turn/);
});

test("numbers and marks are fields", () => {
  const { turns } = parseRun("2 1 thread 3 ticks 4 receive 1 client 2 got 9 ends\nreport\n");
  assert.deepEqual({ ...turns[0] }, {
    kind: "received", thread: 3, ticks: 4, port: 1, client: 2, got: 9, ends: " ends",
    index: 0, actor: 1, time: 2, first: 0, line: 0, last: 0,
  });
});

test("a refused input has no turns", () => {
  const { refusedInput, turns } = parseRun("refused line 7 3 NoTicket\n");
  assert.deepEqual([refusedInput.line, refusedInput.reason, turns.length], [7, "NoTicket", 0]);
});
