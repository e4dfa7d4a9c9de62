// Elements of the page, and what follows the pointer.

import { clamp } from "./format.js";

export function element(tag, properties = {}, ...children) {
  const one = document.createElement(tag);
  for (const [name, value] of Object.entries(properties)) {
    if (name in one) one[name] = value;
    else one.setAttribute(name, value);
  }
  one.append(...children);
  return one;
}

export function shape(tag, attributes = {}, ...children) {
  const one = document.createElementNS("http://www.w3.org/2000/svg", tag);
  for (const [name, value] of Object.entries(attributes)) one.setAttribute(name, value);
  one.append(...children);
  return one;
}

export const text = (tag, textContent, className = "") => element(tag, { className, textContent });
export const faint = (words) => text("span", words, "faint");
export const spans = (texts) => texts.map((words) => text("span", words));

export const button = (textContent, title, onclick) => element("button", { textContent, title, onclick });
export const label = (...parts) => element("label", {}, ...parts);

export function choice(options) {
  return element("select", {}, ...options.map(([value, words]) => element("option", { value, textContent: words })));
}

export function rowsOf(rows) {
  return rows.map(({ cells, className = "" }) =>
    element("tr", { className }, ...cells.map((parts) => element("td", {}, ...parts))));
}

export function tableOf(heads, rows) {
  const top = element("tr", {}, ...heads.map((one) => element("th", {}, one)));
  return element("table", {}, element("thead", {}, top), element("tbody", {}, ...rowsOf(rows)));
}

export const head = (title, ...tools) => element("div", { className: "head" }, text("h2", title), ...tools);

/** Shows these lines beside the pointer, or nothing. */
export function tip(event, lines) {
  const box = document.getElementById("tip");
  box.hidden = !lines;
  if (!lines) return;
  box.replaceChildren(...lines.map((line, i) => text(i ? "code" : "b", line)));
  const { offsetWidth: wide, offsetHeight: tall } = box;
  const right = event.clientX + 14;
  const left = right + wide < window.innerWidth ? right : Math.max(4, event.clientX - 14 - wide);
  box.style.left = `${left}px`;
  box.style.top = `${clamp(4, event.clientY + 16, window.innerHeight - tall - 8)}px`;
}

/** Calls `move(event)` while the pointer is on the canvas, then `move(null)`. */
export function hover(canvas, move) {
  canvas.addEventListener("pointermove", move);
  canvas.addEventListener("pointerleave", () => {
    tip(null, null);
    move(null);
  });
}
