// The input's and the output's lines. Only those in sight are elements.

import { app } from "../app.js";
import { element, head, text } from "../elements.js";
import { lastUpTo, listAt } from "../lookup.js";

const TALL = 18;

/** A pane of so many lines; the functions take a line's index. */
function paneOf(name, count, { lookOf, textOf, choose }) {
  const inside = element("div", { style: `position:relative;height:${count * TALL}px` });
  const look = { className: `pane ${name}`, role: "region", ariaLabel: `The ${name}'s lines`, tabIndex: 0 };
  const box = element("div", look, inside);
  const lineOf = (i) => {
    const place = { className: `line ${lookOf(i)}`, style: `top:${i * TALL}px`, onclick: () => choose(i) };
    return element("div", place, text("i", i + 1), textOf(i));
  };
  const show = () => {
    const first = Math.max(0, Math.floor(box.scrollTop / TALL) - 10);
    const last = Math.min(count, first + Math.ceil(box.clientHeight / TALL) + 20);
    inside.replaceChildren(...Array.from({ length: Math.max(0, last - first) }, (_, i) => lineOf(first + i)));
  };
  const reveal = (first, last) => {
    const { scrollTop, clientHeight } = box;
    const [top, bottom] = [first * TALL, (last + 1) * TALL];
    const isIn = top >= scrollTop && bottom <= scrollTop + clientHeight;
    if (!isIn) box.scrollTop = Math.max(top - clientHeight / 3, bottom - clientHeight);
    show();
  };
  box.addEventListener("scroll", () => requestAnimationFrame(show));
  return { box, show, reveal };
}

export function texts(root) {
  const { run, input } = app;
  const lastLines = run.turns.map(({ last }) => last);
  const turnsOf = new Map(); // by line of the input
  for (const { kind, index, inputLine } of run.turns) if (kind !== "draw") listAt(turnsOf, inputLine).push(index);
  const source = paneOf("input", input.lines.length, {
    lookOf: (i) => (i === app.now.inputLine && !app.hides ? "here" : ""),
    textOf: (i) => input.lines[i],
    choose(i) { // to the next turn of this line, or its first
      const turns = turnsOf.get(i) ?? [];
      app.go(turns.find((turn) => turn > app.turn) ?? turns[0] ?? app.turn);
    },
  });
  const choose = (i) => !isVeiled(i) && app.go(lastUpTo(lastLines, i - 1) + 1);
  const output = paneOf("output", run.lines.length, { lookOf, textOf, choose });
  root.append(head("Input and output"), text("h3", "input"), source.box, text("h3", "output"), output.box);
  const show = () => {
    const { first, last, inputLine = null } = app.now;
    if (inputLine === null || app.hides) source.show();
    else source.reveal(inputLine, inputLine);
    output.reveal(first, last);
  };
  new ResizeObserver(show).observe(output.box);
  app.listen((change) => change !== "view" && show());
}

/** In a quiz later lines aren't to be read. */
const isVeiled = (i) => app.quiz && i > (app.hides ? app.now.line : app.now.last);

function lookOf(i) {
  const { first, line, last } = app.now;
  if (isVeiled(i)) return "veiled";
  if (i === line) return "here";
  return i >= first && i <= last ? "near" : "";
}

/** A line, in a quiz without what tells the winner. */
function textOf(i) {
  const words = app.run.lines[i];
  const { first, line } = app.now;
  if (isVeiled(i)) return words.replace(/[a-z0-9]/g, "x");
  if (!app.hides || i < first || i > line) return words;
  if (i < line) return words.replace(/ wins$/, "");
  return words.replace(/ thread \d+( got \d+)?$/, " thread ?").replace(/(unlock \d+ to) \d+/, "$1 ?");
}
