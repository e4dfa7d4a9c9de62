// The picture of the funding graph at the turn at hand.

import { app } from "../app.js";
import { hue } from "../colours.js";
import { element, head, shape, spans } from "../elements.js";
import { cut, grouped, some } from "../format.js";
import { graphOf } from "./graph.js";

const svg = shape("svg", { role: "img" });
const legend = element("p", { className: "legend" });
let width = 0;
let graph;

export function funding(root) {
  const box = element("div", { className: "scroll", tabIndex: 0 }, svg);
  root.append(head("Who is worth what"), box, legend);
  new ResizeObserver(([{ contentRect }]) => {
    width = Math.max(contentRect.width - 2, 320);
    show();
  }).observe(box);
  app.listen((change) => change !== "view" && width && show());
}

function show() {
  graph = graphOf(app.hides ? Math.max(0, app.turn - 1) : app.turn, width);
  const { state, threads, nodes, edges, values } = graph;
  const label = `Base, ${state.currencies.size - 1} currencies and ${threads.length} threads with their values`;
  const look = { width: graph.width, height: graph.height, "aria-label": label };
  for (const [name, value] of Object.entries(look)) svg.setAttribute(name, value);
  const lends = [...values.lends].map((pair) => pair.map((thread) => nodes.get(`t${thread}`)));
  svg.replaceChildren(...edges.map(ticket), ...edges.map(tag), ...[...nodes.values()].map(nodeOf),
    ...lends.filter(([from, to]) => from && to).map(lend));
  legend.replaceChildren(...spans(notes()));
}

const shown = (value) => grouped(app.model.printed(value));

/** With fewer digits, cut off. */
function short(value) {
  const number = app.model.printed(value);
  return grouped(number < 100 ? number : Math.floor(number * 10) / 10);
}

const written = (words, x, y, name = "", anchor = "start") =>
  shape("text", { class: name, x, y, "text-anchor": anchor }, words);

function ticket({ number, amount, from, to, value }) {
  const { wide, tall, values } = graph;
  const [x1, y1, x2, y2] = [from.x + wide, from.y + tall / 2, to.x, to.y + tall / 2];
  const bend = Math.min(60, (x2 - x1) / 2);
  const d = `M${x1} ${y1}C${x1 + bend} ${y1} ${x2 - bend} ${y2} ${x2} ${y2}`;
  const thick = 1 + 5 * Math.sqrt(value / Math.max(values.currencies.get(0), 1));
  return shape("path", { class: value > 0 ? "ticket" : "ticket inactive", d, "stroke-width": thick },
    shape("title", {}, `ticket ${number}: ${amount} of ${from.name}, worth ${shown(value)}`));
}

/** A ticket's amount at its end; of several into one node, one below the other. */
function tag({ amount, above, to }) {
  const words = grouped(amount);
  const wide = words.length * 6.6 + 6;
  const [x, y] = [to.x - 8, to.y + graph.tall / 2 + 13 * above];
  return shape("g", {}, shape("rect", { class: "tag", x: x - wide, y: y - 7, width: wide, height: 14, rx: 3 }),
    written(words, x - 3, y + 4, "small", "end"));
}

/** A node. If it is tight, its value stands in place of its note. */
function nodeOf({ thread, name, value, isChanged, isIdle, note, title = note, x, y }) {
  const { wide, tall, isSmall } = graph;
  const inset = thread ? 18 : 8;
  const words = short(value);
  const room = wide - inset - 8;
  const isTight = !isSmall && name.length * 8.4 + words.length * 7.6 + 6 > room;
  const middle = y + tall / 2;
  const above = middle + (isSmall ? 4 : -4);
  const look = `node${isChanged ? " changed" : ""}${isIdle ? " idle" : ""}`;
  const colour = { x: x + 5, y: y + 5, width: 6, height: tall - 10, rx: 2, fill: hue(app.colour(thread)) };
  return shape("g", {}, shape("title", {}, `${name}: value ${shown(value)}, ${title}`),
    shape("rect", { class: look, x, y, width: wide, height: tall, rx: 6 }), ...(thread ? [shape("rect", colour)] : []),
    written(cut(name, (isTight ? room : room - 6 - words.length * 7.6) / 8), x + inset, above, "name"),
    written(words, x + wide - 7, isTight ? middle + 13 : above, "", "end"),
    written(isSmall || isTight ? "" : cut(note, room / 6), x + inset, middle + 12, "small"));
}

function lend([from, to]) {
  const { wide, tall } = graph;
  const [x, y1, y2] = [from.x + wide, from.y + tall / 2 + 4, to.y + tall / 2 - 4];
  const bend = x + Math.min(52, 20 + Math.abs(y2 - y1) / 6);
  return shape("g", {}, shape("path", { class: "lend", d: `M${x} ${y1}C${bend} ${y1} ${bend} ${y2} ${x + 8} ${y2}` }),
    shape("path", { class: "arrow", d: `M${x + 1} ${y2}l9 -5v10z` }),
    written(short(from.value), x + 54, (y1 + y2) / 2 + 4, "lends", "end"));
}

function notes() {
  const { state, loose, left } = graph;
  return [...[...state.owners].map(([mutex, owner]) => mutexNote(mutex, owner)),
    ...(loose.length ? [`fund nothing: ${some(loose, 6)}`] : []),
    ...(left ? [`${left} more threads of smaller values`] : []),
    "numbers on lines: amounts of tickets; a thicker line is worth more; a blue frame: the value has just changed"];
}

function mutexNote(mutex, owner) {
  const waiters = [...graph.state.threads].filter(([, one]) => one.kind === "waiting" && one.mutex === mutex);
  const names = waiters.map(([number]) => app.name(number));
  const wait = names.length ? `, ${some(names, 8)} ${names.length > 1 ? "wait" : "waits"}` : "";
  return `mutex ${app.words.mutex(mutex)}: ${owner ? `owned by ${app.name(owner)}` : "free"}${wait}`;
}
