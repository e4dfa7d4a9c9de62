// Shares over time: of ticks beside what was due, or of draws won beside the chances in them, exact for any run.

import { app } from "../app.js";
import { fill, hasStrokes, hue, swatch } from "../colours.js";
import { choice, element, head, hover, label, spans, tip } from "../elements.js";
import { clamp, grouped, percent, Scale } from "../format.js";
import { Plot } from "../plot.js";
import { countDraws, countTicks, shareAt } from "./figures.js";

const LEFT = 44;
const RIGHT = 130;
const TOP = 12;
const TALL = 300;
const FLOOR = TALL - 26;
const MOST_LINES = 12;

const WORDS = {
  ticks: ["its part of all ticks", "due by its value while ready or running; blocks and more processors shift it",
    "two standard deviations of a binomial share of as many draws"],
  draws: ["its part of the draws won", "its chances in them", "two standard deviations of these chances"],
};

const of = choice([["ticks", "ticks"], ["draws", "draws won"]]);
const by = choice([["thread", "thread"], ["currency", "currency"]]);
const bands = element("input", { type: "checkbox", checked: true });
const legend = element("div", { className: "legend" });
let within, plot, counted;
let alone = null; // a line
let pointer = null; // a place

export function shares(root) {
  within = choice([[0, "from the start"], ...windows()]);
  plot = new Plot("Shares over time; the report says where they end", TALL, paintShares, paintTurn);
  root.append(head("Shares over time", label("of", of), ...(app.model.currencies.size > 1 ? [label("by", by)] : []),
    label("counted", within), label(bands, "band of 2σ")), plot.box, legend);
  hover(plot.canvas, point);
  of.onchange = by.onchange = count;
  within.onchange = bands.onchange = () => plot.redraw();
  app.listen(follow);
  count();
}

function follow(change) {
  if (change === "look") showLegend();
  plot.follow(change);
}

function windows() {
  const lengths = [50, 20, 10, 5, 2].map((part) => Number((app.model.end / part).toPrecision(1)));
  return lengths.filter((ticks) => ticks >= 1).map((ticks) => [ticks, `the last ${grouped(ticks)} ticks`]);
}

const isDraws = () => of.value === "draws";
const isByThread = () => by.value === "thread";

function count() {
  if (isDraws()) by.value = "thread";
  by.disabled = isDraws();
  counted = isDraws() ? countDraws(app.run, app.model) : countTicks(app.run, app.model, isByThread());
  alone = null;
  follow("look");
}

const lines = () => (alone ? [alone] : counted.lines.slice(0, MOST_LINES));
const at = (line, time) => shareAt(counted, line, time, Number(within.value));
const nameOf = ({ number, names }) => (isByThread() ? app.name(number, Infinity) : names.values.findLast(Boolean));
const scaleOf = (width) => app.scale(width, LEFT, RIGHT);

function colourOf({ number }) {
  if (isByThread()) return app.colour(number);
  return app.colours === "user" && app.users.includes(number) ? app.users.indexOf(number) : number - 1;
}

function paintShares(pen) {
  const x = scaleOf(pen.width);
  const samples = Math.max(2, Math.round(x.span / 1.5));
  const places = Array.from({ length: samples + 1 }, (_, i) => LEFT + (x.span * i) / samples);
  const all = lines().map((line) => ({ line, colour: colourOf(line),
    points: places.map((place) => ({ place, ...at(line, x.number(place)) })) }));
  const y = new Scale(0, topOf(all) * 100, FLOOR, TOP - FLOOR);
  pen.levels(y, 43, LEFT, x.span, "%");
  pen.axis(x, 120, FLOOR, 4, FLOOR + 14);
  pen.within(LEFT, 0, x.span, FLOOR + 1, () => {
    if (bands.checked && all.length <= 4) for (const one of all) paintBand(pen, y, one);
    for (const one of all) paintLine(pen, y, one);
  });
  if (!app.quiz) paintNames(pen, y, all);
}

/** The greatest share to be shown. The first ones are extreme and don't count. */
function topOf(all) {
  let most = 0;
  for (const { points } of all) {
    for (const { share, due } of points.slice(points.length * 0.04)) most = Math.max(most, share, due);
  }
  return clamp(0.05, most * 1.12, 1);
}

function paintBand(pen, y, { points, colour }) {
  const at = (share) => y.place(clamp(0, share, 1.5) * 100);
  const edge = (side) => points.map(({ place, due, sigma }) => [place, at(due + side * sigma)]);
  pen.fill([...edge(2), ...edge(-2).reverse()], hue(colour), 0.14);
}

function paintLine(pen, y, { points, colour }) {
  const line = (field) => points.map((point) => [point.place, y.place(point[field] * 100)]);
  pen.stroke(line("due"), hue(colour));
  pen.stroke(line("share"), hue(colour), 2, hasStrokes(colour) ? [8, 3] : []);
}

function paintNames(pen, y, all) {
  const ends = all.map((one) => ({ ...one, share: one.points.at(-1).share })).sort((a, b) => b.share - a.share);
  const places = ends.map(({ share }) => y.place(share * 100));
  for (let i = 1; i < places.length; i++) places[i] = Math.max(places[i], places[i - 1] + 15);
  const left = pen.width - RIGHT;
  ends.forEach(({ line, share, colour }, i) => {
    const place = Math.min(places[i], FLOOR - 15 * (places.length - 1 - i));
    pen.box(left + 6, place - 5, 10, 10, fill(colour));
    pen.text(pen.fitted(`${nameOf(line)} ${percent(share)}`, RIGHT - 22), left + 20, place);
  });
}

/** The turn and the pointer; in a quiz nothing behind the turn. */
function paintTurn(pen) {
  const scale = scaleOf(pen.width);
  const here = scale.place(app.now.time);
  pen.within(LEFT - 1, 0, scale.span + 2, FLOOR, () => {
    if (app.quiz) pen.box(here, 0, pen.width, FLOOR, pen.surface);
    pen.box(here - 0.75, TOP - 4, 1.5, FLOOR, pen.accent);
    if (pointer !== null) pen.box(pointer, TOP, 1, FLOOR, pen.faint);
  });
}

function showLegend() {
  const [thick, thin, band] = WORDS[of.value];
  legend.replaceChildren(...spans([`thick: ${thick} · thin: ${thin} · band: ${band}`]),
    ...(counted.lines.length > 1 ? counted.lines.slice(0, 64).map(chooser) : []));
}

function chooser(line) {
  const onclick = () => {
    alone = alone === line ? null : line;
    follow("look");
  };
  const look = { title: "This one alone, or all again", ariaPressed: String(alone === line), onclick };
  return element("button", look, swatch(colourOf(line)), ` ${nameOf(line)}`);
}

function point(event) {
  const time = event ? scaleOf(plot.width).number(event.offsetX) : -1;
  const isIn = time >= app.view.from && time <= app.view.to;
  pointer = isIn ? event.offsetX : null;
  plot.move();
  if (!isIn || (app.quiz && time > app.now.time)) return tip(event, null);
  const what = isDraws() ? "by its chances" : "due";
  const all = lines().map((line) => ({ name: nameOf(line), ...at(line, time) })).sort((a, b) => b.share - a.share);
  const words = all.map(({ name, share, due, sigma }) =>
    `${name} ${percent(share)}, ${what} ${percent(due)} ± ${percent(2 * Math.min(sigma, 0.5))}`);
  tip(event, [`${app.run.timed ? "tick" : "turn"} ${grouped(Math.round(time))}`, ...words]);
}
