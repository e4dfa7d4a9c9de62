// The statuses of threads, each with the processor, port, server or mutex that it is about.

export const READY = { kind: "ready" };
export const DEAD = { kind: "dead" };

export const isLive = (status) => status.kind === "ready" || status.kind === "running";

/** The borrower of a thread with this status, or 0. `owners` has each mutex's owner. */
export function borrower(status, owners) {
  if (status.kind === "served") return status.server;
  if (status.kind === "waiting") return owners.get(status.mutex) ?? 0;
  return 0;
}
