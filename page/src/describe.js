// Turns and statuses in plain words. `words` gives the names of threads, ports and mutexes.

import { TRAPS } from "./traps.js";

function describeTrap(turn, words) {
  const names = { ...words, server: words.name, client: words.name, to: words.name };
  const ticks = turn.ticks === 1 ? "1 tick" : `${turn.ticks} ticks`;
  const reply = turn.answered ? `replies to ${words.name(turn.answered)} and ` : "";
  const act = TRAPS[turn.kind].says.replace(/\{(\w+)\}/g, (_, it) => names[it]?.(turn[it]) ?? turn[it]);
  const ends = turn.ends ? ", and its quantum is used up" : "";
  return `After ${ticks} ${words.name(turn.thread)} ${reply}${act}${ends}.`;
}

export function describe(turn, words) {
  const { kind, actor, number, total, thread, got, reason, command } = turn;
  if (TRAPS[kind]) return describeTrap(turn, words);
  switch (kind) {
    case "draw":
      return `Processor ${actor} draws ${number} of ${total}: ${words.name(thread)} wins`
        + (got === undefined ? "." : ` and gets the number ${got}.`);
    case "idle": return `Processor ${actor} draws, but nobody can win: it waits.`;
    case "wake": return `The timer wakes ${words.name(thread)}.`;
    case "refused": return `The ${actor === 0 ? "console's command" : "wake"} is refused: ${reason}.`;
    default: return `The console: ${command ? [command.word, ...command.words].join(" ") : kind}.`;
  }
}

/** A status behind its thread's name. */
export function describeStatus({ kind, processor, port, server, mutex, until }, words) {
  switch (kind) {
    case "running": return `runs on processor ${processor}`;
    case "receiving": return `waits for a call at port ${words.port(port)}`;
    case "queued": return `its call waits at port ${words.port(port)}`;
    case "served": return `is served by ${words.name(server)}, and lends to it`;
    case "waiting": return `waits for mutex ${words.mutex(mutex)}, and lends to its owner`;
    case "asleep": return `asleep until ${until}`;
    default: return kind;
  }
}
