// Reads an input, which the program has checked.

import { COMMANDS } from "./commands.js";
import { TRAPS } from "./traps.js";

const WORDS = Object.values(TRAPS).map(({ words }) => words).join(" ") + " compute N set N add N loop N";
const hasArgument = (word) => new RegExp(`\\b${word} [A-Z]`).test(WORDS);

/** Undoes the safe form, in which no input can end its element. */
export const unescaped = (text) => text.replaceAll("&lt;", "<").replaceAll("&amp;", "&");

class Input {
  title = "";
  numbers = { lottery: 0, processors: 1, quantum: 100, for: 0 };
  lists = { port: [], mutex: [], without: [] };
  commands = [];
  scripts = new Map();
  script = null; // the open script

  constructor(text) {
    this.lines = text.replace(/\n$/, "").split("\n");
    this.lines.forEach((line, index) => this.read(line, index));
  }

  read(line, index) {
    const words = line.split(/[ \t\r]+/).filter(Boolean);
    if (words.length === 0) return;
    const [word, ...rest] = words;
    if (word.startsWith("#")) this.title ||= line.replace(/^[\s#]+/, "").trim();
    else if (this.script) this.readScript(words, index);
    else if (word === "script") this.begin(rest[0], index);
    else if (word in COMMANDS) this.command(word, rest, index);
    else if (word in this.numbers) this.numbers[word] = Number(rest[0]);
    else this.lists[word]?.push(rest[0]);
  }

  begin(name, line) {
    this.script = { words: [], end: line };
    this.scripts.set(name, this.script);
  }

  readScript(words, line) {
    for (let i = 0; i < words.length; i++) {
      const word = words[i];
      if (word === "endscript") {
        this.script.end = line;
        this.script = null;
        return;
      }
      this.script.words.push({ word, argument: hasArgument(word) ? words[++i] : null, line });
    }
  }

  command(word, rest, line) {
    const isNamed = rest.at(-2) === "as" && (word === "mktkt" || word === "fundx");
    this.commands.push({ word, words: isNamed ? rest.slice(0, -2) : rest, as: isNamed ? rest.at(-1) : null, line });
  }
}

export const parseInput = (text) => new Input(text);
