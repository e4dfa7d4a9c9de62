"""What a rich client of a busy server has of the processor, if queued calls lend nothing and if they lend.

    PYTHONPATH=bindings/python python3 bindings/python/queued_calls.py

A spinner has 1000 tickets, a rich client 1000, and two poor clients 1 each. The clients call a server that has none of
its own. So the rich client is due half of the processor, together with what the server works for it. In as long a run a
model that shares nothing with the kernel has 2.3 percent for it if queued calls lend nothing, and 49.5 if they lend.
This program fails if the kernel differs from that by more than 1.5 points. Its draws are the same in each run.
"""

from collections import Counter

import lot

QUANTUM = 100
THINKS = 10  # the ticks of a client before it calls
WORKS = 50  # the ticks of the server for a call
TICKS = 3_000_000  # of a run
SEEDS = (1, 2, 3)
SERVER, SPINNER, RICH = 1, 2, 3


def made(queued_lend):
    """A kernel in which the server waits at port 1. It has had a ticket until then."""
    kernel = lot.Kernel(processors=1, quantum=QUANTUM, queued_lend=queued_lend)
    kernel.make_funded("server", 1)
    kernel.draw(1, 0)
    kernel.receive(1, port=1)
    kernel.unfund(1)
    for name, amount in [("spinner", 1000), ("rich", 1000), ("poor1", 1), ("poor2", 1)]:
        kernel.make_funded(name, amount)
    return kernel


class Run:
    """A run of such a kernel. The ticks that the server works for a client count as the client's."""

    def __init__(self, kernel):
        self.kernel = kernel
        self.ticks = Counter()
        self.client = None  # that the server works for
        self.left = 0  # the ticks until the server replies to it

    def serves(self, client):
        """The server has taken the client's call, or none."""
        self.client, self.left = client, WORKS + 1

    def call(self, client):
        """The client runs up to its call."""
        reply = self.kernel.call(1, port=1, sent=0, ticks=THINKS)
        self.ticks[client] += reply.ticks
        if reply.outcome is lot.Outcome.SERVED_BY:
            self.serves(client)

    def work(self):
        """The server runs, until its quantum is used up or no call waits."""
        rest, goes_on = QUANTUM, True
        while goes_on and self.left <= rest:
            reply = self.kernel.serve(1, port=1, sent=0, ticks=self.left - 1)
            self.ticks[self.client] += reply.ticks
            rest, goes_on = rest - reply.ticks, reply.goes_on
            self.serves(reply.other)
        if goes_on:
            self.expire(self.client)
            self.left -= rest

    def expire(self, thread):
        """The quantum ends. Its rest counts as this thread's."""
        self.ticks[thread] += self.kernel.expire(1).ticks

    def turn(self, number):
        """A draw, and what its winner does."""
        thread = self.kernel.draw(1, number).thread
        if thread == SERVER:
            self.work()
        elif thread == SPINNER:
            self.expire(thread)
        else:
            self.call(thread)


def share_of_rich(queued_lend, seed):
    """The share of the rich client, with what the server works for it, in percent."""
    with made(queued_lend) as kernel:
        run, numbers = Run(kernel), lot.ParkMiller(seed)
        while (total := sum(run.ticks.values())) < TICKS:
            run.turn(next(numbers))
        return 100 * run.ticks[RICH] / total


def main():
    for queued_lend, words, due in [(False, "lend nothing", 2.3), (True, "lend", 49.5)]:
        share = sum(share_of_rich(queued_lend, seed) for seed in SEEDS) / len(SEEDS)
        print(f"queued calls {words}: a rich client behind poor ones has {share:.1f} percent, where the model has {due}")
        if abs(share - due) > 1.5:
            raise SystemExit("queued_calls: that differs by more than 1.5 points")


if __name__ == "__main__":
    main()
