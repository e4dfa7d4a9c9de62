// The examples, each with what the program prints of it. LOT_SIM is the program; without it the release's is.

import { spawnSync } from "node:child_process";
import { readdirSync, readFileSync } from "node:fs";
import { join } from "node:path";

const here = new URL(".", import.meta.url).pathname;
const top = join(here, "../..");
export const program = process.env.LOT_SIM ?? join(top, "dist/x86_64-linux/lot_sim");

/** What `explain --funding` prints. Its status is 1 for a refused or a strict input. */
function explain(path) {
  const { stdout, status } = spawnSync(program, ["explain", "--funding", "--", path], { maxBuffer: 1 << 28 });
  if (status !== 0 && status !== 1) throw new Error(`${program} has the status ${status} for ${path}`);
  return stdout;
}

/** The page of an input. */
export function pageOf(path) {
  return spawnSync(join(here, "../page"), [path], { maxBuffer: 1 << 28, env: { ...process.env, LOT_SIM: program } }).stdout;
}

function inputs(folder) {
  return readdirSync(folder).filter((name) => name.endsWith(".lot")).sort().map((name) => join(folder, name));
}

const folders = ["examples", "examples/tutorial", "examples/paper", "page/test/inputs"].map((one) => join(top, one));
export const examples = folders.flatMap(inputs).map((path) => {
  const bytes = explain(path);
  return {
    path, name: path.split("/").slice(-2).join("/"), input: readFileSync(path), output: bytes, text: bytes.toString(),
  };
});

export const example = (name) => examples.find((one) => one.name === name);
