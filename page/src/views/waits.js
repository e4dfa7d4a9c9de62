// A histogram of waits, of one thread or of all, with percentiles.

import { app } from "../app.js";
import { hue } from "../colours.js";
import { choice, element, head, hover, label, spans, tip } from "../elements.js";
import { counted, grouped, Scale } from "../format.js";
import { Plot } from "../plot.js";
import { figures, histogram } from "./figures.js";

const LEFT = 44;
const TALL = 250;
const FLOOR = TALL - 34;
const NAMES = { ready: "to run", mutex: "for a mutex", reply: "for a reply" };

const legend = element("div", { className: "legend" });
let threads, kind, who;
let bars = []; // their right ends and texts

export function waits(root) {
  threads = [...app.model.threads.values()];
  const kinds = Object.keys(NAMES).filter((one) => threads.some((thread) => thread.waits[one].length));
  kind = choice(kinds.map((one) => [one, NAMES[one]]));
  who = choice([[0, "all threads"], ...threads.map(({ number }) => [number, app.name(number, Infinity)])]);
  const plot = new Plot("Histogram of waits", TALL, paint);
  root.append(head("Waits", label(kind), label("of", who)), plot.box, legend);
  hover(plot.canvas, (event) => tip(event, event && bars.find(({ right }) => event.offsetX < right)?.words));
  kind.onchange = who.onchange = () => plot.redraw();
  app.listen((change) => change === "look" && plot.redraw());
}

function paint(pen) {
  const chosen = threads.filter(({ number }) => [0, number].includes(Number(who.value)));
  const all = chosen.flatMap((thread) => thread.waits[kind.value] ?? []);
  const lengths = all.map(({ from, to }) => to - from).sort((a, b) => a - b);
  bars = [];
  legend.replaceChildren(...spans(lengths.length ? figures(lengths) : ["no wait has ended"]));
  if (!lengths.length) return;
  const span = pen.width - LEFT - 10;
  const { step, counts } = histogram(lengths, Math.min(40, span / 9));
  const x = new Scale(0, counts.length * step, LEFT, span);
  const y = new Scale(0, Math.max(...counts), FLOOR, 10 - FLOOR);
  pen.levels(y, 50, LEFT, span);
  pen.axis(x, 90, FLOOR, 4, FLOOR + 12);
  pen.text("ticks", LEFT + span / 2, TALL - 8, { ink: pen.faint, align: "center" });
  counts.forEach((count, i) => paintBar(pen, x, y, count, i * step, step));
}

function paintBar(pen, x, y, count, from, step) {
  const [left, right] = [x.place(from), x.place(from + step)];
  const top = count ? Math.min(y.place(count), FLOOR - 2) : FLOOR;
  const colour = Number(who.value) ? app.colour(Number(who.value)) : 4;
  pen.box(left + 1, top, Math.max(right - left - 2, 1), FLOOR - top, hue(colour));
  const range = step === 1 ? grouped(from) : `${grouped(from)} to ${grouped(from + step - 1)}`;
  bars.push({ right, words: [counted(count, "wait"), `of ${range} ticks`] });
}
