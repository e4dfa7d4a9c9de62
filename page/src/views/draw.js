// The lottery at hand: who holds which numbers, and who wins.

import { app } from "../app.js";
import { swatch } from "../colours.js";
import { button, element, faint, head, hover, tableOf, text, tip } from "../elements.js";
import { grouped, percent, Scale } from "../format.js";
import { linesBefore } from "../parse.js";
import { Plot } from "../plot.js";
import { paintLots, SIDE, weightOf } from "./lots.js";

const score = faint("");
const next = button("Next lottery ▶▶", "Next lottery (Shift and →)", () => app.skip(1));
const verdict = element("div", { className: "verdict" });
const table = element("div", { className: "scroll", tabIndex: 0 });
let title, plot;
let lots = [];
let lends = [];
let pointed = null; // a lot

export function draw(root) {
  const top = head("The draw", score, next);
  title = top.firstChild;
  plot = new Plot("The numbers of each thread; the table below says the same", 128,
    (pen) => lots.length && paintLots(pen, scaleOf(pen.width), lots, pointed));
  root.append(top, verdict, plot.box, table);
  hover(plot.canvas, point);
  plot.canvas.addEventListener("click", (event) => app.guessed(under(event).lot?.thread));
  app.guessAt = (index) => app.guessed(lots[index]?.thread);
  app.listen((change) => change !== "view" && show());
  show();
}

const scaleOf = (width) => new Scale(0, app.lottery?.total ?? 1, SIDE, width - 2 * SIDE);

function show() {
  const { lottery } = app;
  const lines = lottery ? linesBefore(app.run, lottery) : [];
  lots = lines.filter(({ kind }) => kind === "lot" || kind === "waiter");
  lends = lines.filter(({ kind }) => kind === "lent");
  pointed = null;
  if (lottery) title.textContent = titleOf(lottery);
  score.textContent = app.quiz ? `${app.score.right} of ${app.score.asked} right` : "";
  next.hidden = !app.quiz && lottery?.index === app.turn;
  verdict.replaceChildren(...verdictOf(lottery));
  plot.box.hidden = !lots.length;
  table.replaceChildren(...(lots.length ? [tableOfLots()] : []));
  if (lots.length > 6) requestAnimationFrame(reveal); // once all is laid out
  plot.redraw();
}

function reveal() {
  const row = table.querySelector(".wins");
  table.scrollTop = row ? row.offsetTop - table.clientHeight / 2 : 0;
}

function titleOf({ kind, actor, mutex, time }) {
  const what = kind === "draw" ? `Draw of processor ${actor}` : `Lottery for mutex ${app.words.mutex(mutex)}`;
  return app.run.timed ? `${what} at tick ${grouped(time)}` : what;
}

function verdictOf(lottery) {
  if (!lottery) return [faint("No lottery was held up to this turn.")];
  if (app.hides) return ask(lottery);
  const winner = lots.find(({ wins }) => wins);
  const isHere = lottery.index === app.turn;
  return [...(app.guess && isHere ? [judge(winner)] : []), ...(winner ? [proof(winner)] : []),
    ...(isHere ? [] : [faint("(the latest lottery before this turn)")])];
}

function ask({ number, total, kind }) {
  const order = kind === "draw" ? "ready threads, by number" : "waiting threads, in the order of waiting";
  return [text("b", `The number is ${grouped(number)} of ${grouped(total)}. Who wins?`),
    faint(`Add up the weights of the ${order}, and choose the first sum that is greater.`)];
}

function judge(winner) {
  const isRight = app.guess === winner?.thread;
  return text("span", isRight ? "✓ Right" : `✗ No, not ${app.name(app.guess)}`, isRight ? "right" : "wrong");
}

/** The sum of weights that shows who wins. */
function proof(winner) {
  const all = lots.slice(0, lots.indexOf(winner) + 1).map((lot) => grouped(weightOf(lot)));
  const sums = all.length > 5 ? [...all.slice(0, 3), "…", all.at(-1)] : all;
  const sum = sums.join(" + ") + (all.length > 1 ? ` = ${grouped(winner.below)}` : "");
  const least = winner.from > 0 ? `, and not below ${grouped(winner.from)}` : "";
  return element("span", {}, text("b", `${app.name(winner.thread, app.lottery.index)} wins`),
    `: ${grouped(app.lottery.number)} is below ${sum}${least}.`);
}

/** A title, what the column holds of a lot, and whether it is shown. */
const columns = () => [
  ["thread", ({ thread }) => [swatch(app.colour(thread)), ` ${app.name(thread)}`]],
  ["", ({ thread }, i) => [app.hides ? button(`wins (${i + 1})`, "", () => app.guessed(thread)) : ""], app.quiz],
  ["why", (lot) => [reasons(lot).join("; ")], lots.some((lot) => reasons(lot).length)],
  [app.lottery.kind === "draw" ? "weight" : "value", (lot) => [grouped(weightOf(lot))]],
  ["chance", (lot) => [percent(weightOf(lot) / app.lottery.total, 2)]],
  ["first number", ({ from }) => [grouped(from)], !app.hides],
  ["below", ({ below }) => [grouped(below)], !app.hides],
].filter(([, , isShown = true]) => isShown);

function tableOfLots() {
  const shown = columns();
  const rows = lots.map((lot, i) =>
    ({ cells: shown.map(([, cell]) => cell(lot, i)), className: lot.wins && !app.hides ? "wins" : "" }));
  return tableOf(shown.map(([title]) => title), rows);
}

/** Why a lot weighs what it does. */
function reasons(lot) {
  const lent = lends.filter(({ to }) => to === lot.thread);
  const stretch = lot.used === undefined ? [] : [`${grouped(lot.value)} × ${lot.quantum} / ${lot.used}`];
  return [...lent.map(({ thread, value }) => `${app.name(thread)} lends ${grouped(value)}`), ...stretch];
}

function under({ offsetX }) {
  const number = scaleOf(plot.width).number(offsetX);
  return { number, lot: lots.find(({ from, below }) => number >= from && number < below) };
}

function point(event) {
  const { lot = null, number } = event ? under(event) : {};
  if (lot !== pointed && !app.hides) plot.redraw();
  pointed = app.hides ? null : lot;
  if (!lot) return tip(event, null);
  const name = app.name(lot.thread);
  if (app.hides) return tip(event, [`${name}, weight ${grouped(weightOf(lot))}`, "click if it wins"]);
  const part = percent((lot.below - lot.from) / app.lottery.total, 2);
  tip(event, [`With ${grouped(Math.floor(number))} ${name} would win`,
    `${grouped(lot.from)} to below ${grouped(lot.below)}, ${part} of the numbers`, ...reasons(lot)]);
}
