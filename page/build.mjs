// Joins the page's sources to its three fixed parts: what stands before a run's text, between the text and the input,
// and behind the input. Run as a program it writes them to parts/.

import { readFileSync, writeFileSync } from "node:fs";
import { fileURLToPath } from "node:url";

/** The modules, each behind those that it needs while it is read. */
const MODULES = [
  "lookup", "history", "status", "traps", "parse", "commands", "input", "place", "value", "replay", "describe", "format",
  "sums", "elements", "colours", "plot", "app", "views/lanes", "views/spans", "views/timeline", "views/lots", "views/draw",
  "views/graph", "views/funding", "views/texts", "views/figures", "views/shares", "views/waits", "views/report", "main",
];
export const NAMES = ["1-beginning", "2-middle", "3-end"];

const read = (path) => readFileSync(new URL(path, import.meta.url));
const source = (name) => read(`src/${name}`).toString();

/** Lines without what people alone read: indents, empty lines, and lines of comments. */
function plain(lines) {
  return lines.replace(/^ *\/\*.*?\*\/\n/gms, "").replace(/^ *(\/\/.*)?\n/gm, "").replace(/^ +/gm, "");
}

/** A module's code as a function's: its imports are names around it, and it returns its exports. */
function moduleOf(name) {
  const code = source(`${name}.js`).replace(/^import [^;]*;\n/gm, "");
  const names = [...code.matchAll(/^export (?:const|class|function) (\w+)/gm)].map((found) => found[1]).join(", ");
  const body = plain(code.replace(/^export /gm, ""));
  return names ? `const { ${names} } = (() => {\n${body}return { ${names} };\n})();\n` : body;
}

export function build() {
  const style = plain(source("page.css"));
  const code = MODULES.map(moduleOf).join("");
  if (/<\/script|<!--/i.test(code) || /<\/style/i.test(style)) throw new Error("a source would end its own element");
  const whole = source("page.html").replace("/*STYLE*/\n", () => style).replace("/*CODE*/\n", () => code);
  return whole.split(/\/\*(?:RUN|INPUT)\*\//).map((part) => Buffer.from(part));
}

export const stored = () => NAMES.map((name) => read(`parts/${name}`));

if (process.argv[1] === fileURLToPath(import.meta.url)) {
  build().forEach((part, i) => writeFileSync(new URL(`parts/${NAMES[i]}`, import.meta.url), part));
}
