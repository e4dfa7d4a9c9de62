// Who ran when: a lane for each processor and each thread, above them the console's commands.

import { app } from "../app.js";
import { fill } from "../colours.js";
import { describe, describeStatus } from "../describe.js";
import { button, element, head, hover, spans, tip } from "../elements.js";
import { clamp, grouped } from "../format.js";
import { lastUpTo } from "../lookup.js";
import { Pen, Plot } from "../plot.js";
import { AXIS, lanesOf, LEFT, RIGHT } from "./lanes.js";
import { LOOKS, paintLane, spansIn } from "./spans.js";

const MOST_ARROWS = 60;

let lanes, ofThread, height, plot, legend;
let hovered = null; // a span
let dragged = null;

export function timeline(root) {
  ({ lanes, ofThread, height } = lanesOf(app));
  legend = element("div", { className: "legend" });
  plot = new Plot("Timeline of processors and threads; the texts below say the same", height, paintRun, paintTurn);
  root.append(head(`Who ran when${app.run.timed ? "" : ", turn by turn"}`,
    button("+", "Zoom in (+)", () => app.zoom(1 / 2)), button("−", "Zoom out (−)", () => app.zoom(2)),
    button("Whole run", "Whole run (0)", () => app.fit())),
    element("div", { className: "scroll" }, plot.box), legend);
  listen(plot.canvas);
  showLegend();
  app.listen((change) => {
    if (change === "look") showLegend();
    plot.follow(change);
  });
}

const scaleOf = (width) => app.scale(width, LEFT, RIGHT);

function paintRun(pen) {
  const scale = scaleOf(pen.width);
  pen.axis(scale, 110, 18, height, 9, pen.line);
  pen.text("commands", LEFT - 10, 26, { ink: pen.faint, align: "right" });
  pen.within(LEFT - 6, 0, scale.span + 12, height, () => paintCommands(pen, scale));
  pen.within(LEFT, 0, scale.span, height, () => {
    for (const lane of lanes) paintLane(pen, scale, lane);
    for (const [lane, span] of lendsIn(scale)) paintArrow(pen, scale, lane, span, pen.ink, 1.2);
  });
}

/** What moves. With `reuse` names do too. */
function paintTurn(pen) {
  const scale = scaleOf(pen.width);
  const x = scale.place(app.now.time);
  pen.within(LEFT, 0, scale.span, height, () => {
    const lane = hovered && ofThread.get(hovered.thread);
    if (lane && app.borrower(hovered)) paintArrow(pen, scale, lane, hovered, pen.accent, 2.5);
    const known = scale.place(Math.min(app.known, app.model.end)) + 1;
    if (app.quiz) pen.box(Math.max(known, LEFT), AXIS - 2, pen.width, height, pen.surface);
    pen.box(x - 1, 16, 2, height, pen.accent);
    pen.dot(x, 17, 4);
  });
  if (!app.quiz) paintSlice(pen, scale);
  for (const lane of lanes) paintName(pen, lane);
}

function paintCommands(pen, scale) {
  let before = -Infinity;
  for (const turn of app.model.commands) {
    const x = scale.place(app.run.turns[turn].time);
    if (x - before < 3) continue; // one mark for those at a place
    before = x;
    pen.fill([[x - 5, 22], [x + 5, 22], [x, 31]], pen.ink);
    pen.box(x - 0.5, 31, 1, height, pen.ink, 0.18);
  }
}

/** The lends in view; none if there are too many for arrows. */
function lendsIn(scale) {
  const found = [];
  for (const lane of ofThread.values()) {
    for (const span of spansIn(scale, lane)) {
      const isWide = (span.to - span.from) * scale.span > 3 * (scale.to - scale.from);
      if (isWide && ofThread.has(app.borrower(span))) found.push([lane, span]);
    }
    if (found.length > MOST_ARROWS) return [];
  }
  return found;
}

function paintArrow(pen, scale, lane, span, ink, width) {
  const target = ofThread.get(app.borrower(span));
  const x = Math.max(scale.place(span.from), LEFT + 3);
  const down = target.top > lane.top;
  const start = down ? lane.top + lane.height : lane.top;
  const stop = down ? target.top : target.top + target.height;
  const barb = stop + (down ? -7 : 7);
  pen.stroke([[x, start], [x, stop]], ink, width);
  pen.fill([[x - 4, barb], [x + 4, barb], [x, stop]], ink);
}

/** A frame round the slice of the turn at hand. */
function paintSlice(pen, scale) {
  const { now } = app;
  const lane = ofThread.get(now.thread);
  const span = lane?.spans[lastUpTo(lane.turns, now.kind === "draw" ? now.index : now.index - 1)];
  if (span?.status.kind !== "running") return;
  const left = Math.max(LEFT, scale.place(span.from));
  const right = Math.min(scale.place(span.to), LEFT + scale.span);
  if (right <= left) return;
  pen.frame(left - 1, lane.top - 1, right - left + 1, lane.height + 2, pen.ink, 2);
}

function paintName(pen, { kind, number, top, height }) {
  const middle = top + height / 2;
  const size = height < 15 ? 10 : 12;
  if (kind === "processor") return pen.text(`processor ${number}`, 2, middle, { ink: pen.faint, size });
  const side = Math.min(12, height - 2);
  pen.box(2, middle - side / 2, side, side, fill(app.colour(number)));
  pen.text(pen.fitted(app.name(number), LEFT - 28, size), 20, middle, { size });
}

function showLegend() {
  const all = [...ofThread.values()].flatMap((lane) => lane.spans.map(({ status }) => status.kind));
  const seen = new Set(["running", ...all]);
  const keys = Object.keys(LOOKS).filter((kind) => seen.has(kind)).map((kind) => keyOf(...LOOKS[kind]));
  legend.replaceChildren(...keys, ...spans(["▼ command", "↕ arrow: lends its value to"]));
}

function keyOf(words, paint) {
  const canvas = element("canvas", { className: "key", width: 60, height: 28, ariaHidden: "true" });
  const context = canvas.getContext("2d");
  context.scale(2, 2);
  paint(new Pen(context, 30, 14), 1, 0, 28, 14, 0);
  return element("span", {}, canvas, words);
}

/** What is under the pointer. */
function under({ offsetX, offsetY }) {
  const { turns } = app.run;
  const scale = scaleOf(plot.width);
  const time = scale.number(offsetX);
  if (offsetX < LEFT) return { time };
  if (offsetY < AXIS) {
    const isNear = (turn) => Math.abs(scale.place(turns[turn].time) - offsetX) < 8;
    return { time, turn: turns[app.model.commands.find(isNear)] };
  }
  const lane = lanes.find(({ top, height }) => offsetY >= top - 1 && offsetY <= top + height + 2);
  const span = lane?.spans[lastUpTo(lane.starts, time)];
  return span && time <= span.to ? { time, span, turn: turns[span.turn] } : { time };
}

function listen(canvas) {
  hover(canvas, (event) => (dragged && event ? drag(event) : point(event)));
  canvas.addEventListener("pointerdown", ({ offsetX, pointerId }) => {
    dragged = { start: offsetX, last: offsetX, isMoved: false };
    canvas.setPointerCapture(pointerId);
  });
  canvas.addEventListener("pointerup", (event) => {
    if (!dragged?.isMoved) click(event);
    dragged = null;
  });
  canvas.addEventListener("wheel", wheel, { passive: false });
  canvas.addEventListener("dblclick", (event) => app.zoom(1 / 3, under(event).time));
}

function point(event) {
  const { span = null, turn, time } = event ? under(event) : {};
  if (span !== hovered) plot.move();
  hovered = span;
  if (!turn) return tip(event, null);
  if (time >= app.known) return tip(event, ["hidden until you have guessed"]);
  tip(event, [span ? spanText(span) : describe(turn, app.words), app.run.lines[turn.line]]);
}

function spanText({ thread, turn, status, from, to }) {
  const until = to === app.model.end ? "the end" : grouped(to);
  const what = `${app.name(thread, turn)}: ${describeStatus(status, app.words)}`;
  return `${what}, ${grouped(from)} to ${until} (${grouped(to - from)} ticks)`;
}

function drag({ offsetX }) {
  if (Math.abs(offsetX - dragged.start) > 3) dragged.isMoved = true;
  if (!dragged.isMoved) return;
  const scale = scaleOf(plot.width);
  app.pan(scale.number(dragged.last) - scale.number(offsetX));
  dragged.last = offsetX;
}

function click(event) {
  const { turn, time } = under(event);
  if (time < app.known) app.go(turn?.index ?? lastUpTo(app.run.turns.map((one) => one.time), time));
}

function wheel(event) {
  const { deltaX, deltaY, ctrlKey, metaKey } = event;
  const isZoom = ctrlKey || metaKey;
  if (!isZoom && Math.abs(deltaX) <= Math.abs(deltaY)) return; // it scrolls the page
  event.preventDefault();
  const { from, to } = app.view;
  if (isZoom) app.zoom(deltaY > 0 ? 1.25 : 0.8, clamp(from, under(event).time, to));
  else app.pan((deltaX / plot.width) * (to - from));
}
