// The colours of threads and of the page.

import { element } from "./elements.js";
import { entry } from "./lookup.js";

/** The colours of Okabe and Ito, for any eyes. From the ninth on strokes tell them apart. */
const HUES = ["#0072b2", "#e69f00", "#009e73", "#d55e00", "#56b4e9", "#cc79a7", "#f0e442", "#8c8c8c"];
const DARK = [0, 2, 3];

export const hue = (index) => (index < 0 ? "#8c8c8c" : HUES[index % HUES.length]);
export const hasStrokes = (index) => index >= HUES.length;

export const inkOn = (index) => (DARK.includes(index % HUES.length) ? "#fff" : "#000");

/** Each eight colours' strokes on a tile of 12 by 12 pixels. */
const STROKES = ["", "M0 12L12 0M-1 1L1 -1M11 13L13 11", "M0 0L12 12M-1 11L1 13M11 -1L13 1", "M0 6H12", "M6 0V12",
  "M0 6H12M6 0V12"];

function tileOf(index) {
  const canvas = element("canvas", { width: 12, height: 12 });
  const context = canvas.getContext("2d");
  context.fillStyle = hue(index);
  context.fillRect(0, 0, 12, 12);
  context.strokeStyle = inkOn(index);
  context.globalAlpha = 0.7;
  context.lineWidth = 2;
  context.stroke(new Path2D(STROKES[Math.floor(index / HUES.length) % STROKES.length]));
  return { pattern: context.createPattern(canvas, "repeat"), url: `url(${canvas.toDataURL()})` };
}

const tiles = new Map();
const tile = (index) => entry(tiles, index, () => tileOf(index));

export const fill = (index) => (hasStrokes(index) ? tile(index).pattern : hue(index));

export function swatch(index) {
  const background = hasStrokes(index) ? tile(index).url : hue(index);
  return element("span", { className: "swatch", style: `background:${background}`, ariaHidden: "true" });
}

export function inks() {
  const style = getComputedStyle(document.documentElement);
  const names = ["ink", "faint", "line", "surface", "soft", "accent"];
  return Object.fromEntries(names.map((name) => [name, style.getPropertyValue(`--${name}`)]));
}
