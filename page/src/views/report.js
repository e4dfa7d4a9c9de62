// The report as tables. A click on a column's title sorts by it.

import { app } from "../app.js";
import { swatch } from "../colours.js";
import { button, element, head, rowsOf, tableOf, text } from "../elements.js";
import { grouped } from "../format.js";

const waits = (kind, title) => [[`${kind}Waits`, title], [`${kind}Mean`, "mean"], [`${kind}Longest`, "longest"]];
const ran = [["quanta", "quanta"], ["ticks", "ticks"]];
const shares = [["share", "share %"], ["due", "due %"]];
const COLUMNS = {
  thread: [["name", "thread"], ...ran, ...shares, ["value", "value %"], ...waits("ready", "waits"),
    ...waits("mutex", "mutex waits"), ...waits("reply", "reply waits"), ["refused", "refused"], ["made", "made"],
    ["ended", "ended"]],
  currency: [["name", "currency"], ["ticks", "ticks"], ...shares],
  processor: [["processor", "processor"], ...ran, ["idle", "idle draws"], ["unused", "unused"]],
};

function table(kind) {
  const rows = app.run.report.filter((row) => row.kind === kind);
  const columns = COLUMNS[kind].filter(([field]) => rows.some((row) => row[field] !== undefined));
  const filled = () => rows.map((row) => ({ cells: columns.map(([field]) => cellOf(row, field)) }));
  const heads = columns.map(([field, title]) => button(title, "Sort by this column", () => {
    const th = heads.find((one) => one.textContent === title).parentNode;
    const isDown = th.ariaSort ? th.ariaSort === "ascending" : field !== "name";
    for (const one of heads) one.parentNode.ariaSort = null;
    th.ariaSort = isDown ? "descending" : "ascending";
    sort(rows, field, isDown ? -1 : 1);
    whole.lastChild.replaceChildren(...rowsOf(filled()));
  }));
  const whole = tableOf(heads, filled());
  return rows.length ? [whole] : [];
}

function sort(rows, field, order) {
  const of = (row) => row[field] ?? -1;
  rows.sort((a, b) => order * (Number(of(a) > of(b)) - Number(of(a) < of(b))));
}

function cellOf(row, field) {
  const value = row[field] ?? "";
  const words = typeof value === "number" ? grouped(value) : value;
  return field === "name" && row.kind === "thread" ? [swatch(app.colour(row.thread)), ` ${words}`] : [words];
}

export function report(root) {
  const box = element("div", { className: "scroll", tabIndex: 0 });
  root.append(head("Report"), box);
  const others = app.run.report.filter(({ kind }) => !COLUMNS[kind]).map((row) => text("p", row.text, "faint"));
  const tables = () => [...Object.keys(COLUMNS).flatMap(table), ...others];
  const show = () =>
    box.replaceChildren(...(app.quiz ? [text("p", "The report is hidden while you guess.", "faint")] : tables()));
  show();
  app.listen((change) => change === "look" && show());
}
