// The figures behind shares over time and behind waits.

import { clamp, counted, grouped, stepOf } from "../format.js";
import { linesBefore } from "../parse.js";
import { Sums } from "../sums.js";

const MOST_BINS = 4000;

function sumsOf({ end }) {
  const count = clamp(1, Math.ceil(end), MOST_BINS);
  return new Sums(count, end / count);
}

function drawsOf(run, model) {
  const draws = sumsOf(model);
  for (const draw of model.draws) draws.add(run.turns[draw].time, 1);
  return draws;
}

const sorted = (lines, end) =>
  [...lines.values()].sort((a, b) => b.ran.before(end) - a.ran.before(end) || a.number - b.number);

/** Ticks `ran`, and those that were `due`, by thread or by currency but base. */
export function countTicks(run, model, isByThread) {
  const records = [...(isByThread ? model.threads : model.currencies).values()].filter(({ number }) => number);
  const dueWhole = isByThread ? model.worthTime : model.baseTime;
  const lines = new Map(records.map(({ number, names, due }) =>
    [number, { number, names, due, dueWhole, ran: sumsOf(model) }]));
  const whole = sumsOf(model);
  for (const { time, ticks, thread, above } of model.slices) {
    const start = time - (run.timed ? ticks : 1);
    whole.spread(start, time, ticks);
    for (const number of isByThread ? [thread] : above) lines.get(number).ran.spread(start, time, ticks);
  }
  return { whole, draws: drawsOf(run, model), lines: sorted(lines, model.end) };
}

/** Draws won by thread, the `chance` in them, and its `variance`. */
export function countDraws(run, model) {
  const lines = new Map([...model.threads.values()].map(({ number, names }) =>
    [number, { number, names, ran: sumsOf(model), chance: sumsOf(model), variance: sumsOf(model) }]));
  for (const turn of model.draws.map((draw) => run.turns[draw])) {
    lines.get(turn.thread).ran.add(turn.time, 1);
    for (const { thread, from, below } of linesBefore(run, turn).filter(({ kind }) => kind === "lot")) {
      const part = (below - from) / turn.total;
      lines.get(thread).chance.add(turn.time, part);
      lines.get(thread).variance.add(turn.time, part * (1 - part));
    }
  }
  const draws = drawsOf(run, model);
  return { whole: draws, draws, lines: sorted(lines, model.end) };
}

/** A line's share, its due share and the deviation of that, over so much time before. */
export function shareAt({ whole, draws }, { ran, due, dueWhole, chance, variance }, time, window) {
  const start = window ? Math.max(0, time - window) : 0;
  const summed = (sums) => sums.before(time) - sums.before(start);
  const grown = (growth) => growth.at(time) - growth.at(start);
  const all = summed(whole) || 1;
  const count = summed(draws);
  const part = chance ? summed(chance) / all : grown(due) / (grown(dueWhole) || 1);
  const spread = chance ? summed(variance) : part * (1 - part) * count;
  return { share: summed(ran) / all, due: part, sigma: count < 1 ? 1 : Math.sqrt(Math.max(0, spread)) / count };
}

/** How many of these rising lengths are in each step; about `most` steps. */
export function histogram(lengths, most) {
  const longest = lengths.at(-1);
  const step = Math.max(1, stepOf(longest / most));
  const counts = new Array(Math.floor(longest / step) + 1).fill(0);
  for (const length of lengths) counts[Math.floor(length / step)]++;
  return { step, counts };
}

export function figures(lengths) {
  const rank = (part) => grouped(lengths[Math.ceil(part * lengths.length) - 1]);
  const mean = lengths.reduce((sum, one) => sum + one, 0) / lengths.length;
  return [counted(lengths.length, "wait"), `mean ${grouped(mean)}`, `median ${rank(0.5)}`, `90% ≤ ${rank(0.9)}`,
    `99% ≤ ${rank(0.99)}`, `longest ${rank(1)}`];
}
