// Each trap, and a quantum's end.

import { listAt } from "./lookup.js";
import { DEAD, READY } from "./status.js";

function answer(replay, turn) {
  const client = turn.answered;
  if (!client) return;
  replay.expect(turn, client, "served");
  const thread = replay.threads.get(client);
  thread?.waits.reply.push({ from: thread.calledAt, to: turn.time });
  replay.setStatus(turn, client, READY);
}

const become = (replay, turn, status) => replay.setStatus(turn, turn.thread, status);
const ready = (replay, turn) => become(replay, turn, READY);
const goOn = (replay, turn) => turn.ends && ready(replay, turn); // or it runs on

function call(replay, turn, thread, status) {
  thread.calledAt = turn.time;
  become(replay, turn, status);
}

function own(replay, turn, owner) {
  replay.setOwner(turn, turn.mutex, owner);
  goOn(replay, turn);
}

function pass(replay, turn) {
  const { to, mutex } = turn;
  replay.expect(turn, to, "waiting");
  replay.stopWaiting(to);
  replay.setOwner(turn, mutex, to);
  const waiter = replay.threads.get(to);
  waiter?.waits.mutex.push({ from: waiter.waitedFrom, to: turn.time });
  replay.setStatus(turn, to, READY);
  ready(replay, turn);
}

const trap = (forms, words, says, does) => ({ forms: forms.split(" / "), words, says, does });

/**
 * Of each kind the forms of its lines; the words of a script that lead to it, with their arguments, none for any; what
 * the thread does, in plain words; and what that does to a replay.
 */
export const TRAPS = {
  expire: trap("expire", "", "has used up its quantum", ready),
  yield: trap("yield", "yield", "gives up its quantum", ready),
  served: trap("call {port} served by {server}", "call PORT",
    "calls port {port}; {server} serves it, and is lent the caller's value", (replay, turn, thread) => {
      replay.setStatus(turn, turn.server, READY);
      call(replay, turn, thread, { kind: "served", server: turn.server });
    }),
  queued: trap("call {port} queued", "call PORT", "calls port {port}, where no server waits: its call is queued",
    (replay, turn, thread) => call(replay, turn, thread, { kind: "queued", port: turn.port })),
  received: trap(
    "receive {port} client {client} got {got}[{ends:E}]"
      + " / reply client {answered} receive {port} client {client} got {got}[{ends:E}]",
    "receive PORT serve PORT", "takes the call of {client} at port {port}", (replay, turn) => {
      answer(replay, turn);
      replay.expect(turn, turn.client, "queued");
      replay.setStatus(turn, turn.client, { kind: "served", server: turn.thread });
      goOn(replay, turn);
    }),
  receiving: trap("receive {port} waits / reply client {answered} receive {port} waits", "receive PORT serve PORT",
    "waits for a call at port {port}", (replay, turn) => {
      answer(replay, turn);
      become(replay, turn, { kind: "receiving", port: turn.port });
    }),
  replied: trap("reply client {answered}[{ends:E}]", "reply", "goes on", (replay, turn) => {
    answer(replay, turn);
    goOn(replay, turn);
  }),
  locked: trap("lock {mutex} taken[{ends:E}]", "lock MUTEX", "takes mutex {mutex}",
    (replay, turn) => own(replay, turn, turn.thread)),
  waiting: trap("lock {mutex} waits", "lock MUTEX", "waits for mutex {mutex}, and lends its value to the owner",
    (replay, turn, thread) => {
      thread.waitedFrom = turn.time;
      listAt(replay.waiters, turn.mutex).push(turn.thread);
      become(replay, turn, { kind: "waiting", mutex: turn.mutex });
    }),
  freed: trap("unlock {mutex} free[{ends:E}]", "unlock MUTEX", "frees mutex {mutex}",
    (replay, turn) => own(replay, turn, 0)),
  drawn: trap("unlock {mutex} to {to} draw {number:D} of {total:D}", "unlock MUTEX",
    "passes mutex {mutex} to {to}: a lottery of the waiters drew {number} of {total}", pass),
  passed: trap("unlock {mutex} to {to} oldest", "unlock MUTEX",
    "passes mutex {mutex} to {to}, who has waited longest", pass),
  sleep: trap("sleep", "sleep TICKS", "goes to sleep", (replay, turn, thread, ticks) =>
    become(replay, turn, { kind: "asleep", until: turn.time + Number(ticks) })),
  exit: trap("exit", "exit", "ends", (replay, turn) => become(replay, turn, DEAD)),
  trapRefused: trap("refused {code} {reason:R}[{ends:E}]", "", "is refused a trap: {reason}",
    (replay, turn, thread) => {
      thread.refused++;
      goOn(replay, turn);
    }),
};

/** Leads the thread through its script by this turn's ticks, and gives the trap's argument. */
export function follow(replay, turn, { place }) {
  const isTrap = turn.kind !== "expire";
  turn.inputLine = place.pass(turn.ticks - (isTrap ? 1 : 0));
  if (turn.inputLine === null) replay.doubt(turn, "its script has a trap before these ticks");
  if (!isTrap) return null;
  const { word, argument, line } = place.trap();
  turn.inputLine = line;
  const { words } = TRAPS[turn.kind];
  if (words && !words.split(" ").includes(word)) replay.doubt(turn, `its script has ${word} here`);
  return argument;
}
