"""The events of many_events.c, as a caller in Python makes them, and the same line printed.

    PYTHONPATH=bindings/python python3 examples/embed/many_events.py [THREADS [ROUNDS]]

A round is two events. THREADS is a multiple of 8. Without arguments there are 8 threads and 500000 rounds, as in C.
"""

import sys

import lot


def make_threads(kernel, threads):
    """Two users with half of the threads each."""
    for user, amount in [("alice", 250 * threads), ("bob", 125 * threads)]:
        kernel.make_currency(user)
        kernel.fund(kernel.make_ticket(amount).ticket, user)
    for i in range(threads // 2):
        amount = 100 * (i % 4 + 1)
        kernel.make_funded(f"a{i}", amount, "alice")
        kernel.make_funded(f"b{i}", amount, "bob")


def play_round(kernel, number):
    """A draw, and then the winner's expiry, or its yield if its number is even. The winner, 0 if there is none."""
    reply = kernel.draw(processor=1, number=number)
    if reply.kind is not lot.ReplyKind.WINNER:
        return 0
    if reply.thread % 2 == 0:
        kernel.yield_(processor=1, ticks=19)
    else:
        kernel.expire(processor=1)
    return reply.thread


def main(threads=8, rounds=500_000):
    with lot.Kernel(tickets=threads + 2, currencies=2, threads=threads, ports=0, mutexes=0, processors=1) as kernel:
        make_threads(kernel, threads)
        total = 0
        for count, number in zip(range(rounds), lot.ParkMiller(1)):
            total += play_round(kernel, number) * (count % 5 + 1)
    print(f"{2 * rounds} events, sum {total}")


main(*map(int, sys.argv[1:]))
