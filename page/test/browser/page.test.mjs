// The page in a headless Chromium: each example opens without a fault, and keys, clicks and choices do what they should.

import assert from "node:assert/strict";
import { after, before, test as untimed } from "node:test";
import { example, examples } from "../runs.mjs";
import { Browser } from "./chromium.mjs";

const test = (name, body) => untimed(name, { timeout: 60000 }, async () => {
  await body();
  assert.deepEqual(browser.faults.splice(0), []);
});
const SHIFT = 8;
const CONTROL = 2;
let browser;
const open = (name, turn) => browser.open(example(name), turn);
const run = (expression) => browser.run(expression);
const textOf = (selector) => run(`document.querySelector(${JSON.stringify(selector)}).innerText`);
const turn = () => run("app.turn");

before(async () => (browser = await Browser.start()));
after(() => browser.stop());

for (const one of examples) {
  test(`the page of ${one.name} opens`, async () => {
    await browser.open(one);
    const notes = await run("[...document.querySelectorAll('#problems .note')].map((note) => note.textContent)");
    if (one.text.startsWith("refused")) return assert.match(notes[0], /^The input was refused: line \d+, \w+\.$/);
    assert.deepEqual(notes, []);
    assert.equal(await run("document.getElementById('run').textContent.length"), one.text.length + 1);
    await browser.key("End");
    await browser.key("Home");
  });
}

test("keys lead through the turns", async () => {
  await open("examples/two_users.lot");
  for (const [key, modifiers, expected] of [
    ["ArrowRight", 0, 1], ["ArrowRight", 0, 2], ["ArrowLeft", 0, 1], ["ArrowRight", SHIFT, 8], ["ArrowRight", SHIFT, 10],
    ["ArrowLeft", SHIFT, 8], ["End", 0, 409], ["ArrowRight", 0, 409], ["Home", 0, 0], ["ArrowLeft", 0, 0],
  ]) {
    await browser.key(key, modifiers);
    assert.equal(await turn(), expected, `${key} ${modifiers}`);
  }
  await browser.key("ArrowRight", SHIFT);
  assert.match(await textOf(".output .here"), /180 1 draw 297.992 of 300 thread 2$/);
  assert.equal(await textOf("#turn b"), "Processor 1 draws 297.992 of 300: b wins.");
  assert.match(await textOf("#draw .verdict"), /^b wins: 297.992 is below 200 \+ 100 = 300, and not below 200/);
});

test("clicks on lines lead to their turns", async () => {
  await open("examples/two_users.lot");
  const click = (pane, end) =>
    run(`[...document.querySelectorAll('.${pane} .line')].find((one) => one.textContent.endsWith('${end}')).click()`);
  await click("output", "thread 1 a weight 200 from 0 below 200");
  assert.equal(await turn(), 8);
  await click("input", "fund 2 bob");
  assert.equal(await run("app.run.lines[app.now.line]"), "0 0 done");
  assert.match(await textOf(".input .here"), /fund 2 bob$/);
});

test("the timeline tells of turns and leads to them, zooms and pans", async () => {
  await open("tutorial/lock.lot");
  const place = await browser.place("#timeline .over", 0.5, 0.37); // processor 1, some thread's quantum
  await browser.mouse("mouseMoved", place);
  await browser.drawn();
  const tip = await textOf("#tip");
  assert.match(tip, /^\w+: runs on processor 1, /);
  assert.match(tip, /1 draw [\d.]+ of [\d.]+ thread \d$/);
  await browser.click(place);
  assert.equal(await run("app.now.kind"), "draw");
  await browser.key("+");
  assert.ok((await run("app.view.to - app.view.from")) <= 10000);
  const before = await run("app.view");
  const left = [place[0] - 200, place[1]];
  await browser.mouse("mousePressed", place, { button: "left", clickCount: 1 });
  await browser.mouse("mouseMoved", left, { button: "left", buttons: 1 });
  await browser.mouse("mouseReleased", left, { button: "left", clickCount: 1 });
  assert.ok((await run("app.view.from")) > before.from);
  await browser.mouse("mouseWheel", place, { deltaX: 0, deltaY: -100, modifiers: CONTROL });
  await browser.drawn();
  assert.ok((await run("app.view.to - app.view.from")) < before.to - before.from);
  await browser.key("0");
  assert.deepEqual(await run("app.view"), { from: 0, to: 20000 });
});

test("the funding graph has the values of the turn at hand", async () => {
  await open("tutorial/lock.lot", 240);
  const titles = () => run("[...document.querySelectorAll('#funding g > title')].map((one) => one.textContent)");
  assert.deepEqual(await titles(), [
    "base: value 1\u202f990, active 1\u202f990", "low: value 1\u202f000, ready", "middle: value 990, ready",
    "high: value 990, waits for mutex m, and lends to its owner",
  ]);
  assert.equal(await run("document.querySelector('#funding .lends').textContent"), "990");
  assert.match(await textOf("#funding .legend"), /^mutex m: owned by low, high waits/);
  await browser.key("Home");
  await browser.key("ArrowRight");
  assert.deepEqual(await titles(), ["base: value 10, active 10", "low: value 10, runs on processor 1"]);
});

test("a quiz hides the winner until one is guessed, and keeps the score", async () => {
  await open("examples/two_users.lot", 20);
  await browser.key("q");
  assert.ok(await run("app.hides"));
  const line = await run("app.run.lines[app.now.line]");
  const text = await run("document.body.innerText");
  assert.ok(!text.includes(line) && text.includes(line.replace(/thread \d$/, "thread ?")));
  assert.ok(!text.split("\n").some((one) => one.includes(`${line.split(" ")[0]} 1 lot`) && one.endsWith(" wins")));
  await browser.key(String(await run("app.now.thread")));
  assert.deepEqual(await run("app.score"), { right: 1, asked: 1 });
  assert.match(await textOf("#draw .verdict"), /✓ Right/);
  await browser.key("ArrowRight", SHIFT);
  const wrong = 3 - (await run("app.now.thread"));
  await run(`[...document.querySelectorAll('#draw td button')][${wrong - 1}].click()`);
  assert.deepEqual(await run("app.score"), { right: 1, asked: 2 });
  assert.match(await textOf("#draw .verdict"), /✗ No/);
  await browser.key("ArrowRight", SHIFT);
  await browser.click(await browser.place("#draw .over", 0.3, 0.55)); // thread a's numbers
  assert.equal(await run("app.score.asked"), 3);
  await browser.key("q");
  assert.equal(await run("app.hides"), false);
});

test("the report's columns sort", async () => {
  await open("examples/two_groups.lot");
  const sort = () => run("document.querySelectorAll('#report th button')[1].click()");
  const column = () => run("[...document.querySelectorAll('#report tbody')[0].rows].map((row) => row.cells[1].innerText)");
  await sort();
  assert.deepEqual(await column(), ["62", "58", "47", "41", "38", "31", "25", "24"]);
  await sort();
  assert.equal((await column())[0], "24");
  assert.equal(await run("document.querySelectorAll('#report th')[1].ariaSort"), "ascending");
});

test("colours by user, theme, shares and waits", async () => {
  await open("examples/two_users.lot");
  await browser.choose("#colours", "user");
  assert.deepEqual(await run("[1, 2, 3].map((number) => app.colour(number))"), [0, 1, 1]);
  const isDark = () => run("document.documentElement.classList.contains('dark')");
  const was = await isDark();
  await browser.key("t");
  assert.equal(await isDark(), !was);
  await browser.choose("#shares label:nth-of-type(2) select", "currency");
  assert.deepEqual(await run("[...document.querySelectorAll('#shares .legend button')].map((one) => one.innerText.trim())"),
    ["alice", "bob"]);
  await browser.choose("#shares label:nth-of-type(3) select", "2000");
  await browser.choose("#shares label:nth-of-type(1) select", "draws");
  await browser.choose("#waits label:nth-of-type(2) select", "3");
  await browser.drawn();
  assert.match(await textOf("#waits .legend"), /16 waits/);
});

test("the slider, playing and the keys' dialog", async () => {
  await open("examples/two_users.lot");
  await browser.choose("#slider", "100");
  assert.equal(await turn(), 100);
  await run("document.activeElement.blur()");
  await browser.key(" ");
  await new Promise((resolve) => setTimeout(resolve, 1600));
  await browser.key(" ");
  const played = await turn();
  assert.ok(played >= 101 && played <= 103, String(played));
  await browser.key("?");
  assert.equal(await run("document.getElementById('keys').open"), true);
  await browser.key("Escape");
});

test("nothing in an input breaks out of its element", async () => {
  await open("inputs/hostile.lot");
  const lines = example("inputs/hostile.lot").input.toString().split("\n").slice(0, -1);
  assert.equal(await run("document.title"), lines[0].replace(/^# /, ""));
  assert.deepEqual(await run("app.input.lines"), lines.map((line) => line.replaceAll("\0", "\ufffd").replaceAll("\r", " ")));
  assert.equal(await run("document.scripts.length"), 3);
});

test("a step in a run of a hundred thousand lines is fast", async () => {
  await open("inputs/many.lot", 900);
  await browser.send("Performance.enable");
  const script = async () => {
    const { metrics } = await browser.send("Performance.getMetrics");
    return metrics.find(({ name }) => name === "ScriptDuration").value * 1000;
  };
  const before = await script();
  await run(`(async () => {
    for (let i = 0; i < 40; i++) {
      app.go(app.turn + 1);
      await new Promise((go) => requestAnimationFrame(() => setTimeout(go, 0)));
    }
  })()`);
  const each = ((await script()) - before) / 40;
  assert.ok(each < 50, `${each.toFixed(1)} ms of JavaScript a step`);
});
