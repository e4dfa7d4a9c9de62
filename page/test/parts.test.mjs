// The page's smaller parts: places in scripts, inputs, histories, sums, axes, values, words and waits.

import assert from "node:assert/strict";
import test from "node:test";
import { describe, describeStatus } from "../src/describe.js";
import { cut, grouped, percent, Scale, stepOf } from "../src/format.js";
import { Growth, History } from "../src/history.js";
import { parseInput, unescaped } from "../src/input.js";
import { lastUpTo } from "../src/lookup.js";
import { parseRun } from "../src/parse.js";
import { Place } from "../src/place.js";
import { Replay } from "../src/replay.js";
import { Sums } from "../src/sums.js";
import { part, Values } from "../src/value.js";
import { countDraws, countTicks, figures, histogram, shareAt } from "../src/views/figures.js";

test("an input is read as far as it is needed", () => {
  const input = parseInput("# A title\nlottery 3\nprocessors 2\nwithout lending\nport db\nscript s\nloop 2\n"
    + "compute 5 call db end endscript\nat 7\nfundx 10 base a s as pay\n# more\n");
  assert.equal(input.title, "A title");
  assert.deepEqual(input.numbers, { lottery: 3, processors: 2, quantum: 100, for: 0 });
  assert.deepEqual(input.lists, { port: ["db"], mutex: [], without: ["lending"] });
  assert.deepEqual(input.commands, [{ word: "fundx", words: ["10", "base", "a", "s"], as: "pay", line: 9 }]);
  assert.deepEqual(input.scripts.get("s").words.map(({ word, line }) => [word, line]),
    [["loop", 6], ["compute", 7], ["call", 7], ["end", 7]]);
  assert.equal(input.lines.length, 11);
});

test("the safe form is undone", () => assert.equal(unescaped("&lt;/script>&amp;lt;"), "</script>&lt;"));

test("a place goes through loops and stops at traps", () => {
  const input = parseInput("script s\nloop 2\ncompute 3\ncall db\nend\nexit\nendscript\n");
  const place = new Place(input.scripts.get("s"));
  assert.equal(place.pass(2), 2); // the loop, and one mark of three
  assert.equal(place.pass(2), 2);
  assert.deepEqual([place.word.word, place.pass(1)], ["call", null]);
  assert.equal(place.trap().line, 3);
  assert.equal(place.pass(4), 2); // the end, and the second time
  assert.equal(place.trap().word, "call");
  assert.equal(place.pass(1), 4);
  assert.equal(place.trap().word, "exit");
  assert.deepEqual(place.trap(), { word: "exit", argument: null, line: 6 });
});

test("a history tells the value after a turn", () => {
  const history = new History();
  history.set(3, "a");
  history.set(5, "b");
  history.set(5, "c");
  assert.deepEqual([2, 3, 4, 5, 9].map((turn) => history.at(turn)), [undefined, "a", "a", "c", "c"]);
});

test("a growth adds up its rates", () => {
  const growth = new Growth();
  growth.turn(10, 2);
  growth.turn(20, 0.5);
  assert.deepEqual([0, 10, 15, 20, 24].map((time) => growth.at(time)), [0, 0, 10, 20, 22]);
});

test("the last number up to a limit is found", () => {
  assert.deepEqual([0, 1, 2, 5, 9].map((limit) => lastUpTo([1, 2, 2, 6], limit)), [-1, 0, 2, 2, 3]);
});

test("sums spread a part evenly", () => {
  const sums = new Sums(4, 10);
  sums.spread(5, 25, 40);
  sums.add(39, 1);
  sums.add(40, 1); // the end belongs to the last
  assert.deepEqual([...sums.bins], [10, 20, 10, 2]);
  assert.deepEqual([0, 10, 15, 40].map((time) => sums.before(time)), [0, 10, 20, 42]);
});

test("axes have round marks", () => {
  assert.deepEqual(new Scale(0, 20000, 0, 1100).marks(110), [0, 2000, 4000, 6000, 8000, 10000, 12000, 14000, 16000, 18000, 20000]);
  assert.deepEqual(new Scale(0.1, 0.5, 0, 300).marks(100), [0.2, 0.4]);
  assert.deepEqual([0.3, 1, 1.1, 2.5, 6, 70].map(stepOf), [0.5, 1, 2, 5, 10, 100]);
  const scale = new Scale(10, 20, 100, 50);
  assert.deepEqual([scale.place(12), scale.number(110)], [110, 12]);
});

test("numbers are grouped", () => {
  assert.deepEqual([0, 12.5, 1234.5678, 1000000].map(grouped), ["0", "12.5", "1\u202f234.568", "1\u202f000\u202f000"]);
  assert.deepEqual([percent(0.123), percent(1, 2), cut("abcdef", 4), cut("abcd", 4)], ["12.3%", "100.00%", "abc…", "abcd"]);
});

test("a part of a value is exact beyond 53 bits", () => {
  assert.equal(part(10, 3, 4), 7);
  assert.equal(part(2 ** 40 - 1, 2 ** 32 - 1, 2 ** 32), 2 ** 40 - 257); // 2^40 - 2^8 - 1 + 2^-32, rounded down
});

test("values follow tickets, currencies and lends", () => {
  const ready = { kind: "ready" };
  const values = new Values({
    lending: true, unit: 256, owners: new Map([[1, 1]]),
    threads: new Map([[1, ready], [2, { kind: "waiting", mutex: 1 }], [3, { kind: "asleep" }], [4, ready]]),
    tickets: new Map([
      [1, { amount: 10, issuer: 0, target: { thread: 1 } }], [2, { amount: 30, issuer: 0, target: { currency: 1 } }],
      [3, { amount: 1, issuer: 1, target: { thread: 2 } }], [4, { amount: 2, issuer: 1, target: { thread: 3 } }],
      [5, { amount: 2, issuer: 1, target: { thread: 4 } }], [6, { amount: 9, issuer: 0, target: null }],
    ]),
  });
  const base = (map) => [...map].sort(([a], [b]) => a - b).map(([number, value]) => [number, value / 256]);
  assert.deepEqual(base(values.threads), [[1, 20], [2, 10], [3, 0], [4, 20]]); // 2 waits and lends, 3 sleeps
  assert.deepEqual(base(values.currencies), [[0, 40], [1, 30]]);
  assert.deepEqual([...values.lends], [[2, 1]]);
  assert.deepEqual([...values.above(1)], [1]);
});

test("a cycle of lends ends", () => {
  const served = (server) => ({ kind: "served", server });
  const state = { lending: true, unit: 1, owners: new Map(), threads: new Map([[1, served(2)], [2, served(1)]]) };
  const values = new Values({ ...state, tickets: new Map([[1, { amount: 5, issuer: 0, target: { thread: 1 } }]]) });
  assert.deepEqual([values.threads.get(1), values.threads.get(2)], [0, 0]);
});

test("turns and statuses are sentences", () => {
  const words = { name: (number) => "abc"[number - 1], port: () => "db", mutex: () => "m" };
  const trap = { thread: 1, ticks: 1 };
  assert.deepEqual([
    { kind: "draw", actor: 2, number: 1.5, total: 3, thread: 2, got: 7 }, { ...trap, kind: "expire" },
    { ...trap, kind: "received", answered: 2, port: 1, client: 3, ends: " ends" },
    { ...trap, kind: "drawn", mutex: 1, to: 2, number: 3, total: 4 }, { ...trap, kind: "replied", answered: 3 },
    { kind: "done", command: { word: "fund", words: ["1", "b"] } }, { kind: "refused", actor: 0, reason: "NoThread" },
  ].map((turn) => describe(turn, words)), [
    "Processor 2 draws 1.5 of 3: b wins and gets the number 7.", "After 1 tick a has used up its quantum.",
    "After 1 tick a replies to b and takes the call of c at port db, and its quantum is used up.",
    "After 1 tick a passes mutex m to b: a lottery of the waiters drew 3 of 4.", "After 1 tick a replies to c and goes on.",
    "The console: fund 1 b.", "The console's command is refused: NoThread.",
  ]);
  assert.equal(describeStatus({ kind: "waiting", mutex: 1 }, words), "waits for mutex m, and lends to its owner");
});

test("waits are counted in steps, and ranked", () => {
  assert.deepEqual(histogram([0, 3, 19, 20, 41], 5), { step: 10, counts: [2, 1, 1, 0, 1] });
  assert.deepEqual(histogram([0, 0], 5), { step: 1, counts: [2] });
  assert.deepEqual(figures([0, 2, 4, 10]), ["4 waits", "mean 4", "median 2", "90% ≤ 10", "99% ≤ 10", "longest 10"]);
});

/** Two threads with a ticket each: b runs a quantum, then a. */
const TEXT = `0 0 funded 1 1
0 0 funded 2 2
0 1 lot thread 1 a weight 1 from 0 below 1
0 1 lot thread 2 b weight 1 from 1 below 2 wins
0 1 draw 1.5 of 2 thread 2
100 1 thread 2 ticks 100 expire
100 1 lot thread 1 a weight 1 from 0 below 1 wins
100 1 lot thread 2 b weight 1 from 1 below 2
100 1 draw 0.5 of 2 thread 1
200 1 thread 1 ticks 100 expire
report
`;
const INPUT = "lottery 3\nfor 200\nscript s\ncompute 1000 endscript\nfundx 1 base a s\nfundx 1 base b s\n";

test("shares have dues, chances and deviations", () => {
  const run = parseRun(TEXT);
  const model = new Replay(run, parseInput(INPUT));
  assert.deepEqual([run.errors, model.doubts], [[], []]);
  const sigma = Math.sqrt(0.25 / 2);
  for (const counted of [countTicks(run, model, true), countDraws(run, model)]) {
    assert.deepEqual(counted.lines.map(({ number }) => number), [1, 2]);
    assert.deepEqual(shareAt(counted, counted.lines[0], 200, 0), { share: 0.5, due: 0.5, sigma });
    assert.deepEqual(shareAt(counted, counted.lines[0], 200, 100), { share: 1, due: 0.5, sigma: 0.5 });
    assert.deepEqual(shareAt(counted, counted.lines[1], 100, 0), { share: 1, due: 0.5, sigma: 0.5 });
  }
});
