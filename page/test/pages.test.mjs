// The fixed parts, the pages that are made of them, and the sources' size.

import assert from "node:assert/strict";
import { readdirSync, readFileSync } from "node:fs";
import test from "node:test";
import { build, NAMES, stored } from "../build.mjs";
import { parseInput, unescaped } from "../src/input.js";
import { parseRun } from "../src/parse.js";
import { Replay } from "../src/replay.js";
import { example, examples, pageOf } from "./runs.mjs";

const [beginning, middle, end] = stored();
const here = new URL("..", import.meta.url).pathname;
const sources = readdirSync(`${here}src`, { recursive: true }).filter((name) => /\.\w+$/.test(name));

test("the fixed parts are what the sources give; else run build.mjs", () => {
  build().forEach((part, i) => assert.ok(part.equals(stored()[i]), `parts/${NAMES[i]} differs`));
});

/** An input's safe form, byte by byte. */
function safe(bytes) {
  const forms = new Map([[0x26, "&amp;"], [0x3c, "&lt;"], [0x0d, " "]]);
  return Buffer.concat([...bytes].map((byte) => Buffer.from(forms.get(byte) ?? [byte])));
}

/** What a browser takes as the text of the page's element of this name: up to the first `</script`. */
function embedded(page, id) {
  const begin = `<script type="text/plain" id="${id}">\n`;
  const start = page.indexOf(begin) + begin.length;
  const stop = start + page.subarray(start).toString("latin1").search(/<\/script/i);
  return page.subarray(start, stop);
}

for (const { name, path, input, output } of examples) {
  test(`the page of ${name} has its parts, its text and its input, and replays without doubt`, () => {
    const page = pageOf(path);
    assert.ok(page.equals(Buffer.concat([beginning, output, middle, safe(input), end])));
    assert.ok(embedded(page, "run").equals(output) && !output.includes("<"));
    const source = unescaped(embedded(page, "input").toString("latin1"));
    assert.equal(source, input.toString("latin1").replaceAll("\r", " "));
    const run = parseRun(embedded(page, "run").toString());
    if (!run.refusedInput) assert.deepEqual(new Replay(run, parseInput(source)).doubts, []);
  });
}

test("a comment with </script> and <!-- stays text", () => {
  const { path, input } = example("inputs/hostile.lot");
  assert.match(input.toString("latin1"), /^# <\/script><script>alert\(1\)<\/script> <!--/);
  const parts = pageOf(path).toString("latin1").match(/<\/?script|<!--/gi);
  assert.deepEqual(parts, Array(3).fill(["<script", "</script"]).flat());
});

test("no part asks for anything from elsewhere", () => {
  const page = build().join("").replaceAll("http://www.w3.org/2000/svg", "");
  assert.doesNotMatch(page, /https?:|src=|@import|url\((?!\$)/);
});

test("sources are small, and their lines short", () => {
  let size = 0;
  for (const name of sources) {
    const text = readFileSync(`${here}src/${name}`, "utf8");
    size += Buffer.byteLength(text);
    for (const [i, line] of text.split("\n").entries()) assert.ok(line.length < 120, `${name}:${i + 1} is too long`);
    if (name.endsWith(".js")) assert.match(text, /^\/\/ .*\n/, `${name} doesn't say what it is for`);
  }
  assert.ok(size <= 120000, `${size} bytes`);
});
