// The line of a lottery's numbers: each lot's range, and the drawn number as a pin.

import { app } from "../app.js";
import { fill } from "../colours.js";
import { clamp, grouped } from "../format.js";

export const SIDE = 14;
const TOP = 46;
const TALL = 54;
const BOTTOM = TOP + TALL;

export const weightOf = (lot) => lot.weight ?? lot.value;

export function paintLots(pen, scale, lots, pointed) {
  for (const lot of lots) {
    const isFaded = pointed ? pointed !== lot : !app.hides && !lot.wins;
    paintLot(pen, scale, lot, isFaded && lots.length > 1);
  }
  if (!app.hides) return paintPin(pen, scale, lots);
  const words = `${grouped(app.lottery.total)} numbers from 0 on, in the order of the threads' numbers`;
  pen.text(words, SIDE, BOTTOM + 18, { ink: pen.faint });
}

function paintLot(pen, scale, lot, isFaded) {
  const left = scale.place(lot.from);
  const wide = Math.max(scale.place(lot.below) - left, 0.5);
  const colour = app.colour(lot.thread);
  pen.box(left, TOP, wide > 4 ? wide - 1.5 : wide, TALL, fill(colour), isFaded ? 0.5 : 1);
  if (lot.used !== undefined && wide > 5) paintStretch(pen, scale, lot, left, wide);
  if (wide <= 24) return;
  const name = pen.fitted(app.name(lot.thread), wide - 8, 13, 600);
  if (name) pen.label(name, left + wide / 2, TOP + 18, colour, { isFaded, size: 13, weight: 600 });
  const weight = grouped(weightOf(lot));
  if (pen.measure(weight) < wide - 8) pen.label(weight, left + wide / 2, TOP + 35, colour, { isFaded });
}

/** Compensation stretches a range: a bar below it is the own value, and dots are the rest. */
function paintStretch(pen, scale, lot, left, wide) {
  const own = scale.place(Math.min(lot.from + lot.value, lot.below)) - left;
  for (let x = left + own + 4; lot.value < lot.weight && x < left + wide - 3; x += 9) {
    pen.box(x, BOTTOM - 12, 4, 5, pen.surface, 0.5);
  }
  pen.box(left, BOTTOM + 3, Math.max(own, 1), 3, pen.ink);
}

function paintPin(pen, scale, lots) {
  pen.axis(scale, 130, BOTTOM + 7, 5, BOTTOM + 20);
  const { number } = app.lottery;
  const x = scale.place(number);
  const winner = lots.find(({ wins }) => wins);
  const words = grouped(number) + (winner ? ` → ${app.name(winner.thread)}` : "");
  const half = pen.measure(words, 14, 600) / 2;
  const place = clamp(SIDE + half, x, pen.width - SIDE - half);
  pen.text(words, place, TOP - 34, { size: 14, weight: 600, align: "center" });
  pen.box(x - 1, TOP - 14, 2, 20, pen.ink);
  pen.box(x - 1, BOTTOM - 6, 2, 12, pen.ink);
  pen.dot(x, TOP - 16, 6);
}
