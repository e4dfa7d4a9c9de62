// Starts the page, and leads buttons and keys to what they do.

import { app } from "./app.js";
import { describe } from "./describe.js";
import { text } from "./elements.js";
import { counted, cut, grouped } from "./format.js";
import { parseInput, unescaped } from "./input.js";
import { parseRun } from "./parse.js";
import { Replay } from "./replay.js";
import { draw } from "./views/draw.js";
import { funding } from "./views/funding.js";
import { report } from "./views/report.js";
import { shares } from "./views/shares.js";
import { texts } from "./views/texts.js";
import { timeline } from "./views/timeline.js";
import { waits } from "./views/waits.js";

const INTERVAL = 700; // milliseconds a turn while it plays

const by = (id) => document.getElementById(id);
const embedded = (id) => by(id).textContent.replace(/^\n/, "");
const problem = (words) => by("problems").append(text("p", words, "note"));

function start() {
  const run = parseRun(embedded("run"));
  const input = parseInput(unescaped(embedded("input")));
  if (input.title) by("title").textContent = document.title = cut(input.title, 140);
  tellProblems(run);
  by("stepper").hidden = !run.turns.length;
  if (!run.turns.length) return;
  const model = new Replay(run, input);
  const [doubt] = model.doubts;
  if (doubt) problem(`The replay doesn't fit the text, first at turn ${doubt.turn + 1}: ${doubt.why}.`);
  app.begin(run, input, model);
  show();
}

function tellProblems({ refusedInput, errors, turns }) {
  if (refusedInput) return problem(`The input was refused: line ${refusedInput.line}, ${refusedInput.reason}.`);
  for (const { line, why, text: words } of errors.slice(0, 5)) problem(`Line ${line} of the run: ${why}: ${words}`);
  if (errors.length > 5) problem(`${errors.length - 5} more lines can't be read.`);
  if (!turns.length) problem("The run has no turns.");
}

function show() {
  window.app = app; // for the browser's console
  by("summary").textContent = summary(app);
  by("by").hidden = !app.users.length;
  by("slider").max = app.run.turns.length - 1;
  for (const [id, view] of Object.entries({ timeline, draw, funding, texts, shares, report, waits })) {
    view(by(id));
    by(id).ariaLabel = by(id).querySelector("h2").textContent;
  }
  app.listen((change) => change !== "view" && showTurn());
  showTurn();
  steer();
  location.hash.replace(/^#turn=(\d+)$/, (_, turn) => app.go(Number(turn) - 1));
}

function summary({ run, input, model }) {
  const currencies = model.currencies.size - 1; // without base
  return [counted(model.threads.size, "thread"), currencies && counted(currencies, "currency", "currencies"),
    counted(input.numbers.processors, "processor"), `quantum ${input.numbers.quantum}`,
    run.timed && counted(model.end, "tick"), counted(run.turns.length, "turn"), counted(model.draws.length, "draw"),
    ...input.lists.without.map((word) => `without ${word}`)].filter(Boolean).join(" · ");
}

function showTurn() {
  const { now, turn, run, hides, quiz } = app;
  by("slider").value = turn;
  by("slider").setAttribute("aria-valuetext", `turn ${turn + 1}`);
  const question = `Who wins? The number is ${now.number} of ${now.total}.`;
  const place = `turn ${grouped(turn + 1)} of ${grouped(run.turns.length)}`;
  by("turn").replaceChildren(text("b", hides ? question : describe(now, app.words)),
    text("span", run.timed ? `${place} · tick ${grouped(now.time)}` : place));
  by("quiz").ariaPressed = String(quiz);
}

let timer = 0;
function play() {
  const isStart = timer === 0;
  clearInterval(timer);
  timer = isStart ? setInterval(() => (isAtEnd() ? play() : app.go(app.turn + 1)), INTERVAL) : 0;
  by("play").textContent = isStart ? "Pause" : "Play";
}

const isAtEnd = () => app.hides || app.turn === app.run.turns.length - 1;

function quiz() {
  app.set("quiz", !app.quiz);
  if (app.quiz && app.lottery?.index !== app.turn) app.skip(1);
}

function theme() {
  document.documentElement.classList.toggle("dark");
  app.tell("look");
}

const ACTIONS = {
  first: () => app.go(0), lastDraw: () => app.skip(-1), back: () => app.go(app.turn - 1), play,
  forward: () => app.go(app.turn + 1), nextDraw: () => app.skip(1), last: () => app.go(Infinity), quiz, theme,
  help: () => by("keys").showModal(),
};

const closer = () => app.zoom(1 / 2);
const KEYS = {
  ArrowLeft: ACTIONS.back, ArrowRight: ACTIONS.forward, "Shift ArrowLeft": ACTIONS.lastDraw,
  "Shift ArrowRight": ACTIONS.nextDraw, Home: ACTIONS.first, End: ACTIONS.last, " ": play, q: quiz, t: theme,
  "?": ACTIONS.help, "+": closer, "=": closer, "-": () => app.zoom(2), 0: () => app.fit(),
};

function steer() {
  for (const [id, action] of Object.entries(ACTIONS)) by(id).onclick = action;
  by("slider").oninput = () => app.go(Number(by("slider").value));
  by("colours").onchange = () => app.set("colours", by("colours").value);
  document.addEventListener("keydown", press);
}

function press(event) {
  const { key, target, shiftKey, ctrlKey, metaKey, altKey } = event;
  const isOwn = target.matches("select, [type=checkbox]") || (key === " " && target.matches("button"));
  if (isOwn || ctrlKey || metaKey || altKey || by("keys").open) return;
  if (/^[1-9]$/.test(key) && app.hides) return app.guessAt(Number(key) - 1);
  const action = KEYS[key.length === 1 ? key.toLowerCase() : (shiftKey ? "Shift " : "") + key];
  if (!action) return;
  event.preventDefault();
  action();
}

if (matchMedia("(prefers-color-scheme: dark)").matches) document.documentElement.classList.add("dark");
start();
