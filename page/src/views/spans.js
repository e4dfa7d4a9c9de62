// How the timeline paints a lane's spans.

import { app } from "../app.js";
import { fill, hue } from "../colours.js";
import { grouped } from "../format.js";
import { entry, lastUpTo } from "../lookup.js";
import { Sums } from "../sums.js";
import { LEFT } from "./lanes.js";

const framed = (pattern) => (pen, left, top, wide, tall) => {
  const box = [left + 0.5, top + tall * 0.18, Math.max(wide - 1, 1), tall * 0.64];
  pen.box(...box, pen.surface);
  const [low, high] = [Math.max(left, -20), Math.min(left + wide, pen.width + 20)];
  pen.within(...box, () => pattern(pen, low, high, top, tall));
  pen.frame(...box, pen.faint);
};

const strokes = (lean) => framed((pen, low, high, top, tall) => {
  for (let x = low - tall - ((low - tall) % 6); x < high + tall; x += 6) {
    pen.stroke([[x, top + tall], [x + lean * tall, top]], pen.faint);
  }
});

const dots = framed((pen, low, high, top, tall) => {
  for (let x = low - (low % 6); x < high; x += 6) pen.box(x, top + tall / 2 - 1, 2.5, 2.5, pen.faint);
});

function cross(pen, left, top, wide, tall) {
  const middle = top + tall / 2;
  for (const side of [-4, 4]) pen.stroke([[left, middle + side], [left + 8, middle - side]], pen.faint);
}

/** Each status's name in the legend, and its shape in a lane. */
export const LOOKS = {
  running: ["runs", (pen, left, top, wide, tall, colour) => pen.box(left, top, wide, tall, fill(colour))],
  ready: ["ready", (pen, left, top, wide, tall, colour) => pen.box(left, top + tall / 2 - 1.5, wide, 3, hue(colour))],
  receiving: ["waits for a call", framed(() => {})],
  queued: ["call queued", dots],
  served: ["served by another", strokes(-1)],
  waiting: ["waits for a mutex", strokes(1)],
  asleep: ["asleep", (pen, left, top, wide, tall) =>
    pen.stroke([[left, top + tall / 2], [left + wide, top + tall / 2]], pen.faint, 1, [2, 4])],
  dead: ["has ended", cross],
};

export const spansIn = (scale, { spans, starts }) =>
  spans.slice(Math.max(0, lastUpTo(starts, scale.from)), lastUpTo(starts, scale.to) + 1);

export function paintLane(pen, scale, lane) {
  pen.box(LEFT, lane.top, scale.span, lane.height, pen.soft, lane.kind === "processor" ? 0.9 : 0.35);
  const spans = spansIn(scale, lane);
  if (spans.length > scale.span / 3) paintColumns(pen, scale, lane, spans);
  else for (const span of spans) paintSpan(pen, scale, lane, span);
}

function paintSpan(pen, scale, lane, span) {
  const { kind } = span.status;
  const left = scale.place(span.from);
  const wide = Math.max(scale.place(span.to) - left, 0.75);
  const isRunning = kind === "running";
  if (!isRunning && wide < 1 && kind !== "dead") return;
  const box = [left, lane.top, isRunning && wide > 4 ? wide - 1 : wide, lane.height];
  const colour = app.colour(span.thread);
  LOOKS[kind][1](pen, ...box, colour);
  if (lane.height < 15) return;
  if (!isRunning && wide > 60) paintBorrower(pen, span, ...box);
  if (!isRunning || wide <= 26) return;
  const words = lane.kind === "processor" ? app.name(span.thread, span.turn) : grouped(span.to - span.from);
  const fitted = pen.fitted(words, wide - 8);
  if (fitted) pen.label(fitted, left + wide / 2, lane.top + lane.height / 2, colour);
}

function paintBorrower(pen, span, left, top, wide, tall) {
  const borrower = app.borrower(span);
  if (!borrower) return;
  const mutex = span.status.mutex ? `${app.words.mutex(span.status.mutex)} ` : "";
  const words = pen.fitted(`${mutex}→ ${app.name(borrower, span.turn)}`, wide - 12);
  const start = Math.max(left, LEFT) + 4;
  pen.box(start, top + tall / 2 - 8, pen.measure(words) + 8, 16, pen.surface);
  pen.text(words, start + 4, top + tall / 2);
}

const COLUMN = 2;
const BLOCKED = Infinity; // behind all numbers

/** Where spans are narrower than pixels: in each column the parts of its time by thread. */
function paintColumns(pen, scale, lane, spans) {
  const count = Math.ceil(scale.span / COLUMN);
  const per = (scale.to - scale.from) / count;
  const parts = new Map();
  for (const { thread, status, from, to } of spans) {
    if (status.kind === "ready" || status.kind === "dead") continue;
    const key = status.kind === "running" ? thread : BLOCKED;
    const start = Math.max(from, scale.from);
    entry(parts, key, () => new Sums(count, per)).spread(start - scale.from, to - scale.from, to - start);
  }
  const sorted = [...parts].sort(([a], [b]) => a - b);
  const bottoms = new Float64Array(count).fill(lane.top + lane.height);
  for (const [thread, { bins }] of sorted) paintParts(pen, bottoms, lane.height / per, thread, bins);
}

function paintParts(pen, bottoms, height, thread, bins) {
  const style = thread === BLOCKED ? [pen.faint, 0.35] : [fill(app.colour(thread))];
  bins.forEach((time, i) => {
    bottoms[i] -= time * height;
    if (time > 0) pen.box(LEFT + i * COLUMN, bottoms[i], COLUMN + 0.3, time * height, ...style);
  });
}
