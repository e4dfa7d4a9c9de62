// What each command of the console does to a replay. A listing does nothing.

import { DEAD, READY } from "./status.js";

const ticketNumber = (replay, word) => replay.numbers.tickets.get(word) ?? Number(word);

function makeTicket(replay, turn, amount, issuer) {
  const ticket = { amount: Number(amount), issuer: replay.numbers.currencies.get(issuer), target: null };
  replay.setTicket(turn, turn.ticket, ticket);
}

function change(replay, turn, word, changes) {
  const number = ticketNumber(replay, word);
  const ticket = replay.now.tickets.get(number);
  if (!ticket) return replay.doubt(turn, `no ticket ${number}`);
  replay.setTicket(turn, number, { ...ticket, ...changes });
}

function fund(replay, turn, word, target) {
  const { currencies, threads } = replay.numbers;
  const place = currencies.has(target) ? { currency: currencies.get(target) } : { thread: threads.get(target) };
  change(replay, turn, word, { target: place });
  const thread = replay.threads.get(place.thread);
  if (thread) thread.user ??= replay.now.tickets.get(ticketNumber(replay, word))?.issuer;
}

/** The clients of a killed server are ready, and its mutexes pass to their oldest waiters. */
function release(replay, turn, number) {
  for (const [client, { kind, server }] of replay.now.threads) {
    if (kind === "served" && server === number) replay.setStatus(turn, client, READY);
  }
  for (const [mutex, owner] of replay.now.owners) {
    if (owner !== number) continue;
    const next = replay.waiters.get(mutex)?.shift() ?? 0;
    replay.setOwner(turn, mutex, next);
    if (next) replay.setStatus(turn, next, READY);
  }
}

export const COMMANDS = {
  mktkt: (replay, turn, [amount, issuer]) => makeTicket(replay, turn, amount, issuer),
  rmtkt: (replay, turn, [ticket]) => replay.setTicket(turn, ticketNumber(replay, ticket), null),
  mkcur: (replay, turn, [name]) => replay.makeCurrency(turn.index, turn.currency, name),
  rmcur(replay, turn, [name]) {
    const { currencies } = replay.numbers;
    replay.currencies.get(currencies.get(name))?.names.set(turn.index, null);
    currencies.delete(name);
  },
  fund: (replay, turn, [ticket, target]) => fund(replay, turn, ticket, target),
  unfund: (replay, turn, [ticket]) => change(replay, turn, ticket, { target: null }),
  settkt: (replay, turn, [ticket, amount]) => change(replay, turn, ticket, { amount: Number(amount) }),
  mkthr: (replay, turn, [name, script]) => replay.makeThread(turn, turn.thread, name, script),
  fundx(replay, turn, [amount, issuer, name, script]) {
    replay.makeThread(turn, turn.thread, name, script);
    makeTicket(replay, turn, amount, issuer);
    fund(replay, turn, turn.ticket, name);
  },
  kill(replay, turn, [name]) {
    turn.thread = replay.numbers.threads.get(name);
    replay.stopWaiting(turn.thread);
    replay.setStatus(turn, turn.thread, DEAD);
    release(replay, turn, turn.thread);
  },
  rmthr(replay, turn, [name]) {
    turn.thread = replay.numbers.threads.get(name);
    replay.now.threads.delete(turn.thread);
    replay.threads.get(turn.thread)?.statuses.set(turn.index, null);
  },
  lstkt() {},
  lscur() {},
  lsthr() {},
};

const ACCEPTED = new Set(["madeTicket", "madeCurrency", "madeThread", "funded", "done"]);
const NO_COMMAND = 41; // the code of a console's turn without a command

/** Makes the input's next command: that of this turn. */
export function command(replay, turn) {
  if (turn.code === NO_COMMAND) return;
  const next = replay.input.commands[replay.made++];
  if (!next) return replay.doubt(turn, "the input has no command left");
  const { word, words, as, line } = next;
  turn.command = next;
  turn.inputLine = line;
  replay.commands.push(turn.index);
  if (!ACCEPTED.has(turn.kind)) return;
  if (as && turn.ticket) replay.numbers.tickets.set(as, turn.ticket);
  COMMANDS[word](replay, turn, words);
}
