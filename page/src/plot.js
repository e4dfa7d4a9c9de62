// Canvases, and what paints on them.

import { hasStrokes, inkOn, inks } from "./colours.js";
import { element } from "./elements.js";
import { clamp, grouped } from "./format.js";

/** A canvas's context, with the page's colours. */
export class Pen {
  constructor(context, width, height) {
    Object.assign(this, { context, width, height }, inks());
    context.textBaseline = "middle";
  }

  box(x, y, width, height, style, alpha = 1) {
    this.context.fillStyle = style;
    this.context.globalAlpha = alpha;
    this.context.fillRect(x, y, width, height);
    this.context.globalAlpha = 1;
  }

  font(size, weight = 400) {
    this.context.font = `${weight} ${size}px system-ui, sans-serif`;
  }

  text(words, x, y, { ink = this.ink, align = "left", size = 12, weight } = {}) {
    this.font(size, weight);
    this.context.fillStyle = ink;
    this.context.textAlign = align;
    this.context.fillText(words, x, y);
  }

  measure(words, size = 12, weight) {
    this.font(size, weight);
    return this.context.measureText(words).width;
  }

  fitted(words, width, ...how) {
    if (this.measure(words, ...how) <= width) return words;
    let { length } = words;
    while (length > 1 && this.measure(`${words.slice(0, length)}…`, ...how) > width) length--;
    return length > 1 ? `${words.slice(0, length)}…` : "";
  }

  /** Text amid a thread's colour, on a plate if that has strokes. */
  label(words, x, y, colour, { isFaded = false, ...how } = {}) {
    const isPlated = hasStrokes(colour);
    const wide = this.measure(words, how.size, how.weight) + 8;
    if (isPlated) this.box(x - wide / 2, y - 8, wide, 16, this.surface);
    this.text(words, x, y, { ...how, ink: isPlated || isFaded ? this.ink : inkOn(colour), align: "center" });
  }

  path(places) {
    this.context.beginPath();
    for (const [x, y] of places) this.context.lineTo(x, y);
  }

  stroke(places, style, width = 1, dash = []) {
    this.context.strokeStyle = style;
    this.context.lineWidth = width;
    this.context.setLineDash(dash);
    this.path(places);
    this.context.stroke();
  }

  frame(x, y, width, height, style, thick = 1) {
    this.context.strokeStyle = style;
    this.context.lineWidth = thick;
    this.context.strokeRect(x, y, width, height);
  }

  fill(places, style, alpha = 1) {
    this.context.fillStyle = style;
    this.context.globalAlpha = alpha;
    this.path(places);
    this.context.fill();
    this.context.globalAlpha = 1;
  }

  dot(x, y, radius) { // in the last style
    this.context.beginPath();
    this.context.arc(x, y, radius, 0, 7);
    this.context.fill();
  }

  /** Paints in this box alone. */
  within(x, y, width, height, paint) {
    this.context.save();
    this.context.beginPath();
    this.context.rect(x, y, width, height);
    this.context.clip();
    paint();
    this.context.restore();
  }

  /** Lines at a scale's marks, and their numbers at `y`. */
  axis(scale, apart, top, tall, y, ink = this.faint) {
    for (const mark of scale.marks(apart)) {
      const words = grouped(mark);
      const x = scale.place(mark);
      const half = this.measure(words) / 2;
      this.box(x, top, 1, tall, ink);
      this.text(words, clamp(half, x, this.width - 4 - half), y, { ink: this.faint, align: "center" });
    }
  }

  /** Lines across at a scale's marks, and their numbers at the left. */
  levels(scale, apart, left, width, unit = "") {
    for (const mark of scale.marks(apart)) {
      const y = scale.place(mark);
      this.box(left, y, width, 1, this.line);
      this.text(grouped(mark) + unit, left - 6, y, { ink: this.faint, align: "right" });
    }
  }
}

function penOf(canvas, width, height) {
  const ratio = window.devicePixelRatio || 1;
  const [wide, tall] = [Math.round(width * ratio), Math.round(height * ratio)];
  if (canvas.width !== wide || canvas.height !== tall) Object.assign(canvas, { width: wide, height: tall });
  const context = canvas.getContext("2d");
  context.setTransform(ratio, 0, 0, ratio, 0, 0);
  context.clearRect(0, 0, width, height);
  return new Pen(context, width, height);
}

/** Two canvases. `ground(pen)` paints what stays from turn to turn, `over(pen)` what moves above it. */
export class Plot {
  isStale = true;
  isAsked = false;

  constructor(label, height, ground, over = () => {}) {
    Object.assign(this, { height, ground, over });
    const style = `height:${height}px`;
    this.lower = element("canvas", { style, ariaHidden: "true" });
    this.canvas = element("canvas", { style, className: "over", tabIndex: 0, role: "img", ariaLabel: label });
    this.box = element("div", { className: "plot" }, this.lower, this.canvas);
    new ResizeObserver(([{ contentRect }]) => {
      this.width = contentRect.width;
      this.redraw();
    }).observe(this.box);
  }

  follow(change) {
    if (change === "turn") this.move();
    else this.redraw();
  }

  redraw() {
    this.isStale = true;
    this.move();
  }

  move() {
    if (!this.isAsked) requestAnimationFrame(() => this.paint());
    this.isAsked = true;
  }

  paint() {
    this.isAsked = false;
    if (!this.width) return;
    if (this.isStale) this.ground(penOf(this.lower, this.width, this.height));
    this.isStale = false;
    this.over(penOf(this.canvas, this.width, this.height));
  }
}
