"""Rows of worked kernels through the package `lot`, what it refuses to take, and the examples in its pages."""

import copy
import dataclasses
import doctest
import inspect
import itertools
import os
import pickle
import platform
import threading
import unittest
from concurrent.futures import ThreadPoolExecutor
from pathlib import Path
from typing import Union
from unittest import mock

import lot
from lot import EventKind, Outcome, Refusal, Refused, Reply, ReplyKind, Status, TargetKind, ThreadState, ThreadStatus

NARROW, WIDE, WIDEST = 1 << 32, 1 << 64, 1 << 128


def load_tests(_loader, tests, _pattern):
    """Adds the examples of all modules of the package."""
    for file in sorted(Path(lot.__file__).parent.glob("*.py")):
        name = "lot" if file.stem == "__init__" else f"lot.{file.stem}"
        tests.addTests(doctest.DocTestSuite(name))
    return tests


GOES_ON = {
    Outcome.RECEIVED,
    Outcome.REPLIED,
    Outcome.REPLIED_THEN_RECEIVED,
    Outcome.LOCKED,
    Outcome.FREED,
    Outcome.REFUSED,
}


def trapped(thread, ticks, outcome, *, ends=False, **fields):
    """The reply to a trap."""
    flags = dict(ends=ends, goes_on=outcome in GOES_ON and not ends)
    return Reply(ReplyKind.TRAPPED, thread=thread, ticks=ticks, outcome=outcome, **flags, **fields)


def refused_for(refusal):
    """The reply to an event that is refused."""
    return Reply(ReplyKind.REFUSED, refusal=refusal)


def funded(kernel, *threads):
    """Makes threads of these names and amounts of base."""
    for name, amount in threads:
        kernel.make_funded(name, amount)
    return kernel


class Worked(unittest.TestCase):
    def test_list_lottery(self):
        with lot.Kernel() as kernel:
            for thread, (amount, name) in enumerate([(10, "a"), (2, "b"), (5, "c"), (1, "d"), (2, "e")], 1):
                made = Reply(ReplyKind.FUNDED, ticket=thread, thread=thread)
                self.assertEqual(kernel.make_funded(name, amount), made)
            for number, thread, reduced in [
                (15, 3, 15), (9, 1, 9), (10, 2, 10), (17, 4, 17), (35, 3, 15), (36090892629924, 1, 4),
            ]:
                reply = kernel.draw(processor=1, number=number)
                self.assertEqual(reply, Reply(ReplyKind.WINNER, thread=thread, number=reduced, total=20))
                self.assertEqual(kernel.runner(1), lot.Runner(thread, 0))
                self.assertEqual(kernel.draw(1, 0, check=False), Reply(ReplyKind.REFUSED, refusal=Refusal.BUSY))
                self.assertEqual(kernel.expire(processor=1), Reply(ReplyKind.EXPIRED, thread=thread, ticks=100))

    def test_currency_graph(self):
        with lot.Kernel() as kernel:
            for currency, name in enumerate(["alice", "bob", "task1", "task2", "task3"], 1):
                self.assertEqual(kernel.make_currency(name), Reply(ReplyKind.CURRENCY, currency=currency))
            tickets = [
                (1000, "base", "alice"), (2000, "base", "bob"),
                (100, "alice", "task1"), (200, "alice", "task2"), (100, "bob", "task3"),
            ]
            for ticket, (amount, currency, target) in enumerate(tickets, 1):
                self.assertEqual(kernel.make_ticket(amount, currency), Reply(ReplyKind.TICKET, ticket=ticket))
                self.assertEqual(kernel.fund(ticket, target), Reply(ReplyKind.DONE))
            threads = [(200, "task2", "thread2"), (300, "task2", "thread3"), (100, "task3", "thread4")]
            for amount, currency, name in threads:
                kernel.make_funded(name, amount, currency)
            self.assertEqual([kernel.thread_row(thread).value for thread in (1, 2, 3)], [400, 600, 2000])
            self.assertIsNone(kernel.thread_row(4))
            row = lot.CurrencyRow("task2", value=1000, active_amount=500, backing=1, issued=2)
            self.assertEqual(kernel.currency_row(4), row)
            self.assertEqual(kernel.currency_row(0).name, "base")
            row = lot.TicketRow(0, 100, "alice", "task1", TargetKind.CURRENCY, target_number=3, is_active=False)
            self.assertEqual(kernel.ticket_row(3), row)
            self.assertEqual((kernel.ticket_count(), kernel.currency_count(), kernel.script_of(1)), (8, 6, 1))
            self.assertEqual(kernel.sizes(), lot.Sizes(64, 16, 16, 2, 2, 2, 1, 100, 1))
            self.assertGreater(kernel.meter().ticket_reads, 0)
            self.assertEqual(
                [kernel.list_tickets().kind, kernel.list_currencies().kind, kernel.list_threads().kind],
                [ReplyKind.LIST_TICKETS, ReplyKind.LIST_CURRENCIES, ReplyKind.LIST_THREADS],
            )

    def test_unmaking(self):
        with lot.Kernel() as kernel:
            kernel.make_currency("alice")
            self.assertEqual(kernel.make_thread("a"), Reply(ReplyKind.THREAD, thread=1))
            kernel.make_ticket(7, "alice")
            kernel.fund(1, "a")
            self.assertEqual(kernel.draw(1, 3), Reply(ReplyKind.IDLE))
            for call in [kernel.unfund, kernel.remove_ticket]:
                self.assertEqual(call(1), Reply(ReplyKind.DONE))
            self.assertEqual(kernel.remove_currency("alice"), Reply(ReplyKind.DONE))
            self.assertIsNone(kernel.ticket_row(1))
            self.assertIsNone(kernel.currency_row(1))

    def test_inflation(self):
        """Inflation and deflation (3.2): 100 of base back alice, whose a and b have 10 each; c has 100 of base."""
        with lot.Kernel() as kernel:
            kernel.make_currency("alice")
            kernel.make_ticket(100)
            kernel.fund(1, "alice")
            for amount, currency, name in [(10, "alice", "a"), (10, "alice", "b"), (100, "base", "c")]:
                kernel.make_funded(name, amount, currency)

            def drawn(number):
                reply = kernel.draw(1, number)
                kernel.expire(1)
                return reply.kind, reply.thread, reply.total

            self.assertEqual(drawn(50), (ReplyKind.WINNER, 2, 200))
            # More of alice's tickets for a: it takes a share of b's, and none of c's.
            self.assertEqual(kernel.set_ticket(2, 30), Reply(ReplyKind.DONE))
            row = lot.TicketRow(75, 30, "alice", "a", TargetKind.THREAD, target_number=1, is_active=True)
            self.assertEqual(kernel.ticket_row(2), row)
            self.assertEqual(drawn(50), (ReplyKind.WINNER, 1, 200))
            # Fewer of base's for alice: 20 for a and b, whose shares of them stay 3 to 1.
            self.assertEqual(kernel.set_ticket(1, 20), Reply(ReplyKind.DONE))
            self.assertEqual(drawn(15), (ReplyKind.WINNER, 2, 120))
            self.assertEqual([kernel.thread_row(thread).value for thread in (1, 2, 3)], [15, 5, 100])
            for ticket, amount, refusal in [
                (1, 0, Refusal.BAD_AMOUNT), (99, NARROW, Refusal.BAD_AMOUNT),
                (99, 1, Refusal.NO_TICKET), (NARROW + 1, 1, Refusal.NO_TICKET),
            ]:
                self.assertEqual(kernel.set_ticket(ticket, amount, check=False), refused_for(refusal))

    def test_removal(self):
        """A thread is removed once it is dead and no ticket funds it. Its name is free then, and its number isn't."""
        with lot.Kernel() as kernel:
            refused = [kernel.remove_thread("a", check=False)]
            funded(kernel, ("a", 10), ("b", 5))
            refused.append(kernel.remove_thread("a", check=False))
            self.assertEqual(kernel.draw(1, 9).thread, 1)
            self.assertEqual(kernel.exit(1, ticks=4), trapped(1, 5, Outcome.EXITED))
            refused.append(kernel.remove_thread("a", check=False))
            self.assertEqual(refused, [refused_for(it) for it in (Refusal.NO_THREAD, Refusal.ALIVE, Refusal.IN_USE)])
            kernel.unfund(1)
            self.assertEqual(kernel.remove_thread("a"), Reply(ReplyKind.DONE))
            self.assertEqual((kernel.thread_row(1), kernel.script_of(1)), (None, None))
            self.assertEqual(kernel.make_thread("a"), Reply(ReplyKind.THREAD, thread=3))
            self.assertEqual([kernel.thread_row(thread).name for thread in (2, 3)], ["b", "a"])

    def test_given_again(self):
        """With `reuse`, the next thread gets the number of the last one removed; a dead one keeps its number."""
        with lot.Kernel(tickets=2, threads=2, reuse=True) as kernel:
            funded(kernel, ("a", 10), ("b", 5))
            kernel.kill("a")
            self.assertEqual(kernel.make_thread("c", check=False), refused_for(Refusal.FULL))
            kernel.unfund(1)
            kernel.remove_thread("a")
            self.assertEqual(kernel.make_thread("c"), Reply(ReplyKind.THREAD, thread=1))
            self.assertEqual([kernel.thread_row(thread).name for thread in (1, 2)], ["c", "b"])
            kernel.remove_ticket(1)
            self.assertEqual(kernel.make_ticket(7).ticket, 1)
            self.assertIs(kernel.sizes().reuse, True)
        self.assertIs(dataclasses.replace(lot.Sizes(1, 1, 1, 0, 0, 1, 0, 1, 1), reuse=2).reuse, True)
        self.assertRaises(TypeError, lot.Kernel, reuse="yes")

    def test_no_names(self):
        """Threads without a name come and go, in room for two; a number refers to each."""
        done = Reply(ReplyKind.DONE)
        with lot.Kernel(tickets=2, threads=2, reuse=True) as kernel:
            self.assertEqual(kernel.make_thread(), Reply(ReplyKind.THREAD, thread=1))
            kernel.make_ticket(3)
            row = lot.TicketRow(0, 3, "base", None, TargetKind.NONE, target_number=None, is_active=False)
            self.assertEqual(kernel.ticket_row(1), row)
            self.assertEqual(kernel.fund_thread(1, 1), done)
            for _ in range(100):
                self.assertEqual(kernel.make_funded(None, 7, 0), Reply(ReplyKind.FUNDED, ticket=2, thread=2))
                row = lot.TicketRow(7, 7, "base", None, TargetKind.THREAD, target_number=2, is_active=True)
                self.assertEqual(kernel.ticket_row(2), row)
                rows = [kernel.thread_row(thread) for thread in (1, 2)]
                self.assertEqual([(row.name, row.value) for row in rows], [(None, 3), (None, 7)])
                make = lot.events
                ends = [make.kill(2), make.unfund(2), make.remove_ticket(2), make.remove_thread(2)]
                self.assertEqual(kernel.run(ends), [done] * 4)
            self.assertEqual(kernel.make_funded(None, amount=7, currency="base").thread, 2)

    def test_plain_names(self):
        with lot.Kernel(plain_names=True) as kernel:
            self.assertIs(kernel.sizes().plain_names, True)
            kernel.make_currency("~")
            kernel.make_funded("Job#1", 4, "~")
            self.assertEqual(kernel.thread_row(1).name, "Job#1")
            row = lot.TicketRow(0, 4, "~", "Job#1", TargetKind.THREAD, target_number=1, is_active=True)
            self.assertEqual(kernel.ticket_row(1), row)
            self.assertEqual(kernel.make_currency("Job#1", check=False), refused_for(Refusal.NAME_TAKEN))
            self.assertEqual(kernel.kill("job#1", check=False), refused_for(Refusal.NO_THREAD))
            self.assertEqual(kernel.kill("Job#1"), Reply(ReplyKind.DONE))
        self.assertIs(dataclasses.replace(lot.Sizes(1, 1, 1, 0, 0, 1, 0, 1, 1), plain_names=2).plain_names, True)
        self.assertRaises(TypeError, lot.Kernel, plain_names="yes")

    def test_queued_lend(self):
        """The server used 1 of 100 ticks, and has 10 and c's 20. If queued calls lend, it has d's 30 too."""
        for lends, total in [(True, 6000), (False, 3000)]:
            with funded(lot.Kernel(queued_lend=lends), ("server", 10), ("c", 20), ("d", 30)) as kernel:
                self.assertIs(kernel.sizes().queued_lend, lends)
                kernel.draw(1, 0)
                self.assertEqual(kernel.receive(1, port=1), trapped(1, 1, Outcome.WAITS))
                kernel.draw(1, 0)
                self.assertEqual(kernel.call(1, port=1, sent=5), trapped(2, 1, Outcome.SERVED_BY, other=1))
                kernel.draw(1, 3000)
                self.assertEqual(kernel.call(1, port=1, sent=6), trapped(3, 1, Outcome.QUEUED))
                winner = Reply(ReplyKind.WINNER, thread=1, number=0, total=total, sent=5)
                self.assertEqual(kernel.draw(1, 0), winner)
        self.assertIs(dataclasses.replace(lot.Sizes(1, 1, 1, 0, 0, 1, 0, 1, 1), queued_lend=2).queued_lend, True)
        self.assertRaises(TypeError, lot.Kernel, queued_lend="yes")

    def test_numbered(self):
        """Commands by number, where 1 is a currency and a thread. 100 of base back alice, whose 40 are a's and b's."""
        done = Reply(ReplyKind.DONE)
        with lot.Kernel() as kernel:
            self.assertEqual(kernel.make_currency("alice").currency, 1)
            self.assertEqual(kernel.make_ticket(100, 0), Reply(ReplyKind.TICKET, ticket=1))
            self.assertEqual(kernel.fund_currency(1, 1), done)
            self.assertEqual(kernel.make_funded("a", 10, 1), Reply(ReplyKind.FUNDED, ticket=2, thread=1))
            self.assertEqual(kernel.make_thread("b").thread, 2)
            self.assertEqual(kernel.make_ticket(30, currency=1).ticket, 3)
            self.assertEqual(kernel.fund_thread(3, 2), done)
            self.assertEqual([kernel.thread_row(thread).value for thread in (1, 2)], [25, 75])
            self.assertEqual([kernel.ticket_row(ticket).target for ticket in (1, 2, 3)], ["alice", "a", "b"])
            kernel.draw(1, 24)
            kernel.exit(1)
            self.assertEqual(kernel.remove_thread(1, check=False), refused_for(Refusal.IN_USE))
            kernel.unfund(2)
            self.assertEqual(kernel.fund_thread(2, 1, check=False), refused_for(Refusal.DEAD_THREAD))
            self.assertEqual(kernel.remove_thread(1), done)
            self.assertIsNone(kernel.thread_row(1))
            kernel.run([lot.events.unfund(ticket) for ticket in (3, 1)])
            kernel.run([lot.events.remove_ticket(ticket) for ticket in (2, 3)])
            self.assertEqual(kernel.remove_currency(1), done)
            self.assertEqual(kernel.fund_currency(1, 1, check=False), refused_for(Refusal.NO_TARGET))

    def test_killed_runner(self):
        """A thread that runs and is killed leaves its processor idle, and is charged nothing more."""
        done = Reply(ReplyKind.DONE)
        with funded(lot.Kernel(), ("a", 400), ("b", 100)) as kernel:
            self.assertEqual([kernel.draw(1, 0).thread, kernel.draw(2, 99).thread], [1, 2])
            self.assertEqual(kernel.lock(1, mutex=1, ticks=29), trapped(1, 30, Outcome.LOCKED))
            self.assertEqual(kernel.kill("a"), done)
            self.assertEqual((kernel.runner(1), kernel.runner(2)), (None, lot.Runner(thread=2, used=0)))
            row = lot.ThreadRow("a", ThreadStatus(ThreadState.DEAD), value=0, weight=0, quanta=1, ticks=30)
            self.assertEqual(kernel.thread_row(1), row)
            self.assertEqual(kernel.expire(1, check=False), refused_for(Refusal.NOT_RUNNING))
            # To charge the other thread for the 50 ticks that it ran, it is preempted first.
            self.assertEqual(kernel.preempt(2, 50), Reply(ReplyKind.EXPIRED, thread=2, ticks=50))
            self.assertEqual(kernel.kill(2), done)
            self.assertEqual(kernel.thread_row(2).ticks, 50)
            # The killed thread owns its mutex no more.
            kernel.unfund(1)
            self.assertEqual(kernel.remove_thread("a"), done)

    def test_killed_server(self):
        """The clients of a killed server are ready, with nothing delivered and with their compensation."""
        with funded(lot.Kernel(), ("server", 1), ("first", 2), ("second", 3)) as kernel:
            kernel.draw(1, 0)
            self.assertEqual(kernel.receive(1, port=1), trapped(1, 1, Outcome.WAITS))
            kernel.draw(1, 0)
            self.assertEqual(kernel.call(1, port=1, sent=7), trapped(2, 1, Outcome.SERVED_BY, other=1))
            kernel.draw(1, 300)
            self.assertEqual(kernel.call(1, port=1, sent=8), trapped(3, 1, Outcome.QUEUED))
            kernel.draw(1, 0)
            self.assertEqual(kernel.receive(1, port=1), trapped(1, 1, Outcome.RECEIVED, other=3, sent=8))
            self.assertEqual(kernel.thread_row(3).status, ThreadStatus(ThreadState.SERVED, other=1))
            self.assertEqual(kernel.kill("server"), Reply(ReplyKind.DONE))
            states = [kernel.thread_row(thread).status for thread in (1, 2, 3)]
            self.assertEqual([it.state for it in states], [ThreadState.DEAD, ThreadState.READY, ThreadState.READY])
            # Each used 1 of 100 ticks before its call.
            self.assertEqual(kernel.draw(1, 199), Reply(ReplyKind.WINNER, thread=2, number=199, total=500))
            self.assertEqual(kernel.draw(2, 0), Reply(ReplyKind.WINNER, thread=3, number=0, total=300))

    def test_killed_at_a_port(self):
        """A killed receiver takes no call, and the call of a killed caller is withdrawn."""
        with funded(lot.Kernel(), ("receiver", 1), ("caller", 2)) as kernel:
            kernel.draw(1, 0)
            kernel.receive(1, port=1)
            kernel.kill("receiver")
            self.assertEqual(kernel.draw(1, 0).thread, 2)
            self.assertEqual(kernel.call(1, port=1, sent=7), trapped(2, 1, Outcome.QUEUED))
            kernel.kill("caller")
            funded(kernel, ("other", 4))
            self.assertEqual(kernel.draw(1, 3), Reply(ReplyKind.WINNER, thread=3, number=3, total=4))
            self.assertEqual(kernel.receive(1, port=1), trapped(3, 1, Outcome.WAITS))

    def test_killed_owner(self):
        """A killed owner's mutex passes to the thread that has waited longest, without a lottery."""
        with funded(lot.Kernel(), ("a", 10), ("b", 20), ("c", 30)) as kernel:
            kernel.draw(1, 0)
            kernel.lock(1, mutex=1)
            kernel.expire(1)
            # The second thread waits first, and lends its 20 to the owner.
            for number, thread in [(10, 2), (30, 3)]:
                drawn = Reply(ReplyKind.WINNER, thread=thread, number=number, total=60)
                self.assertEqual(kernel.draw(1, number), drawn)
                self.assertEqual(kernel.lock(1, mutex=1), trapped(thread, 1, Outcome.WAITS))
            self.assertEqual(kernel.kill("a"), Reply(ReplyKind.DONE))
            self.assertEqual(kernel.thread_row(2).status, ThreadStatus(ThreadState.READY))
            self.assertEqual(kernel.thread_row(3).status, ThreadStatus(ThreadState.WAITING, other=1))
            # It has what the third lends it, and used 1 of 100 ticks.
            self.assertEqual(kernel.draw(1, 4999), Reply(ReplyKind.WINNER, thread=2, number=4999, total=5000))
            # A killed waiter gets no mutex.
            kernel.kill(3)
            self.assertEqual(kernel.unlock(1, mutex=1, number=0), trapped(2, 1, Outcome.FREED))

    def test_kill_refusals(self):
        """A thread that sleeps can be killed, and isn't woken then. A thread that has ended can't be killed."""
        with funded(lot.Kernel(), ("a", 400)) as kernel:
            kernel.draw(1, 0)
            self.assertEqual(kernel.sleep(1), trapped(1, 1, Outcome.SLEPT))
            self.assertEqual(kernel.kill("a"), Reply(ReplyKind.DONE))
            self.assertEqual(kernel.wake(1, check=False), refused_for(Refusal.NOT_ASLEEP))
            self.assertEqual(kernel.draw(1, 0), Reply(ReplyKind.IDLE))
            for thread, refusal in [
                ("a", Refusal.DEAD_THREAD), (1, Refusal.DEAD_THREAD), ("b", Refusal.NO_THREAD),
                ("base", Refusal.NO_THREAD), (2, Refusal.NO_THREAD), (0, Refusal.NO_THREAD),
                (NARROW - 1, Refusal.NO_THREAD),
            ]:
                self.assertEqual(kernel.kill(thread, check=False), refused_for(refusal))
            with self.assertRaises(Refused) as raised:
                kernel.kill("a")
            self.assertEqual(raised.exception.event, lot.Event(EventKind.KILL, name="a"))
            kernel.unfund(1)
            kernel.remove_thread(1)
            self.assertEqual(kernel.kill("a", check=False), refused_for(Refusal.NO_THREAD))

    def test_sleeping(self):
        """A thread that sleeps is in no draw. It used 20 of 100 ticks, so it is woken with 5 times its weight."""
        with funded(lot.Kernel(), ("a", 400), ("b", 100)) as kernel:
            kernel.draw(1, 0)
            self.assertEqual(kernel.sleep(1, ticks=19), trapped(1, 20, Outcome.SLEPT))
            row = lot.ThreadRow("a", ThreadStatus(ThreadState.ASLEEP), value=0, weight=0, quanta=1, ticks=20)
            self.assertEqual(kernel.thread_row(1), row)
            self.assertEqual(kernel.draw(1, 99), Reply(ReplyKind.WINNER, thread=2, number=99, total=100))
            self.assertEqual(kernel.expire(1), Reply(ReplyKind.EXPIRED, thread=2, ticks=100))
            self.assertEqual(kernel.wake(1), Reply(ReplyKind.DONE))
            row = lot.ThreadRow("a", ThreadStatus(ThreadState.READY), value=400, weight=2000, quanta=1, ticks=20)
            self.assertEqual(kernel.thread_row(1), row)
            self.assertEqual(kernel.draw(1, 1999), Reply(ReplyKind.WINNER, thread=1, number=1999, total=2100))

    def test_sleepers_tickets(self):
        """The tickets of a thread that sleeps are inactive: the currency's other thread has all of its 200."""
        with lot.Kernel() as kernel:
            kernel.make_currency("g")
            kernel.fund(kernel.make_ticket(200).ticket, "g")
            kernel.make_funded("a", 2, "g")
            kernel.make_funded("b", 1, "g")
            self.assertEqual(kernel.draw(1, 0), Reply(ReplyKind.WINNER, thread=1, number=0, total=199))
            kernel.sleep(1)
            self.assertEqual([kernel.thread_row(thread).value for thread in (1, 2)], [0, 200])
            row = lot.TicketRow(0, 2, "g", "a", TargetKind.THREAD, target_number=1, is_active=False)
            self.assertEqual(kernel.ticket_row(2), row)
            kernel.wake(1)
            self.assertEqual([kernel.thread_row(thread).value for thread in (1, 2)], [133, 66])

    def test_wake_refusals(self):
        with funded(lot.Kernel(), ("a", 400)) as kernel:
            kernel.draw(1, 0)
            for thread, refusal in [
                (1, Refusal.NOT_ASLEEP), (2, Refusal.NO_THREAD), (0, Refusal.NO_THREAD),
                (NARROW - 1, Refusal.NO_THREAD),
            ]:
                self.assertEqual(kernel.wake(thread, check=False), refused_for(refusal))
            kernel.exit(1)
            self.assertEqual(kernel.wake(1, check=False), refused_for(Refusal.NOT_ASLEEP))
            kernel.unfund(1)
            kernel.remove_thread("a")
            self.assertEqual(kernel.wake(1, check=False), refused_for(Refusal.NO_THREAD))

    def test_preemption(self):
        """A thread whose processor is taken from it is charged what it has run, and isn't compensated."""
        with funded(lot.Kernel(), ("a", 400)) as kernel:
            kernel.draw(1, 0)
            self.assertEqual(kernel.preempt(1, ticks=30), Reply(ReplyKind.EXPIRED, thread=1, ticks=30))
            self.assertEqual(kernel.draw(1, 0), Reply(ReplyKind.WINNER, thread=1, number=0, total=400))
            self.assertEqual(kernel.lock(1, mutex=1, ticks=19), trapped(1, 20, Outcome.LOCKED))
            self.assertEqual(kernel.preempt(1, 81, check=False), refused_for(Refusal.BAD_TICKS))
            self.assertEqual(kernel.runner(1), lot.Runner(thread=1, used=20))
            self.assertEqual(kernel.preempt(1, 80), Reply(ReplyKind.EXPIRED, thread=1, ticks=80))
            self.assertEqual(kernel.preempt(1, check=False), refused_for(Refusal.NOT_RUNNING))
            self.assertEqual(kernel.preempt(0, check=False), refused_for(Refusal.BAD_PROCESSOR))
            kernel.draw(1, 0)
            # It ran no tick, which isn't the same as no ticks in the reply.
            self.assertEqual(kernel.preempt(1), Reply(ReplyKind.EXPIRED, thread=1, ticks=0))
            self.assertEqual(kernel.thread_row(1).ticks, 130)

    def test_overruns(self):
        """A thread whose quantum ended late weighs less until it next wins, but at least 1."""
        with funded(lot.Kernel(), ("a", 400)) as kernel:
            self.assertEqual(kernel.overrun(1, 0, check=False), refused_for(Refusal.NOT_RUNNING))
            self.assertEqual(kernel.overrun(3, 0, check=False), refused_for(Refusal.BAD_PROCESSOR))
            kernel.draw(1, 0)
            self.assertEqual(kernel.overrun(1, late=100), Reply(ReplyKind.EXPIRED, thread=1, ticks=200))
            self.assertEqual(kernel.draw(1, 199), Reply(ReplyKind.WINNER, thread=1, number=199, total=200))
            kernel.expire(1)
            self.assertEqual(kernel.draw(1, 399), Reply(ReplyKind.WINNER, thread=1, number=399, total=400))
            self.assertEqual(kernel.overrun(1, 0), Reply(ReplyKind.EXPIRED, thread=1, ticks=100))
            self.assertEqual(kernel.draw(1, 399), Reply(ReplyKind.WINNER, thread=1, number=399, total=400))
            kernel.lock(1, mutex=1, ticks=19)
            self.assertEqual(kernel.overrun(1, 50), Reply(ReplyKind.EXPIRED, thread=1, ticks=130))
            self.assertEqual(kernel.thread_row(1).weight, 266)
            kernel.draw(1, 0)
            self.assertEqual(kernel.overrun(1, 4294967196, check=False), refused_for(Refusal.BAD_TICKS))
            most = Reply(ReplyKind.EXPIRED, thread=1, ticks=4294967295)
            self.assertEqual(kernel.overrun(1, 4294967195), most)
            self.assertEqual(kernel.thread_row(1).weight, 1)

    def test_servings(self):
        with funded(lot.Kernel(), ("v", 10), ("c", 20), ("d", 30)) as kernel:
            self.assertEqual(kernel.draw(1, 0).thread, 1)
            self.assertEqual(kernel.receive(1, port=1).outcome, Outcome.WAITS)
            self.assertEqual(kernel.draw(1, 0).thread, 2)
            self.assertEqual(kernel.call(1, port=1, sent=5), trapped(2, 1, Outcome.SERVED_BY, other=1))
            # What was called with is delivered to the server when it is drawn.
            replies = [kernel.draw(2, 0), kernel.draw(1, 0)]
            self.assertEqual([(reply.thread, reply.sent) for reply in replies], [(1, 5), (3, None)])
            self.assertEqual(kernel.thread_row(1).status, ThreadStatus(ThreadState.RUNNING, processor=2, used=0))
            self.assertEqual(kernel.call(1, port=1, sent=6).outcome, Outcome.QUEUED)
            self.assertEqual(kernel.thread_row(3).status, ThreadStatus(ThreadState.QUEUED, other=1))
            wanted = trapped(1, 1, Outcome.REPLIED_THEN_RECEIVED, replied_to=2, other=3, sent=6)
            self.assertEqual(kernel.serve(2, port=1, sent=8), wanted)
            wanted = trapped(1, 1, Outcome.REPLIED_THEN_WAITS, replied_to=3)
            self.assertEqual(kernel.serve(2, port=1, sent=9), wanted)

    def test_reply(self):
        with funded(lot.Kernel(), ("v", 10), ("c", 20)) as kernel:
            self.assertEqual(kernel.draw(1, 29).thread, 2)
            kernel.call(1, port=2, sent=0)
            self.assertEqual(kernel.draw(1, 0).thread, 1)
            # A number 0 that was sent isn't the same as none.
            reply = kernel.receive(1, port=2, ticks=3)
            self.assertEqual(reply, trapped(1, 4, Outcome.RECEIVED, other=2, sent=0))
            reply = kernel.reply(1, sent=7, ticks=95)
            self.assertEqual(reply, trapped(1, 96, Outcome.REPLIED, other=2, ends=True))
            self.assertEqual(kernel.yield_(1, 4, check=False).refusal, Refusal.NOT_RUNNING)

    def test_mutex(self):
        """Thread a holds the mutex, for which b and c wait; c wins it by 25 of 50."""
        with funded(lot.Kernel(), ("a", 10), ("b", 20), ("c", 30)) as kernel:
            self.assertEqual(kernel.draw(1, 5).thread, 1)
            self.assertEqual(kernel.lock(1, mutex=1, ticks=4), trapped(1, 5, Outcome.LOCKED))
            for thread in (2, 3):
                self.assertEqual(kernel.draw(2, 0).thread, thread)
                self.assertEqual(kernel.lock(2, mutex=1).outcome, Outcome.WAITS)
            wanted = trapped(1, 1, Outcome.PASSED, other=3, number=25, total=50)
            self.assertEqual(kernel.unlock(1, mutex=1, number=25), wanted)
            # a used 6 of 100 ticks and weighs 10 * 100 / 6; c, with what b lends, used 1 and weighs 50 * 100.
            self.assertEqual(kernel.draw(1, 166), Reply(ReplyKind.WINNER, thread=3, number=166, total=5166))
            self.assertEqual(kernel.exit(1, ticks=9).outcome, Outcome.EXITED)
            row = lot.ThreadRow("c", ThreadStatus(ThreadState.DEAD), value=0, weight=0, quanta=2, ticks=11)
            self.assertEqual(kernel.thread_row(3), row)
            self.assertEqual(kernel.draw(1, 0).thread, 1)
            self.assertEqual(kernel.lock(1, mutex=2).outcome, Outcome.LOCKED)
            self.assertEqual(kernel.unlock(1, mutex=2, number=0).outcome, Outcome.FREED)

    def test_lottery_alone(self):
        self.assertEqual(lot.winner([10, 2, 5, 1, 2], 15), (2, 15, 20))
        self.assertIsNone(lot.winner([0, 0], 7))
        self.assertIsNone(lot.winner([], 7))
        with self.assertRaises(lot.LotError) as raised:
            lot.winner([1 << 127, 1 << 127], 7)
        self.assertEqual(raised.exception.status, Status.TOO_LARGE)
        self.assertEqual([lot.weight(400, 20, 100), lot.weight(7, 3, 100), lot.weight(400, 0, 100)], [2000, 233, 400])
        self.assertEqual([lot.weight(400, 150, 100), lot.weight(1, 1000, 100), lot.weight(0, 1000, 100)], [266, 1, 0])
        self.assertEqual(lot.winner([10, 2, 5, 1, 2], WIDEST - 1), (2, 15, 20))

    def test_generator(self):
        self.assertEqual(lot.ParkMiller(1).number(), 36090892629924)
        self.assertEqual(lot.ParkMiller(1).wide_number(), 166439864623969647858139600294153)
        generator = lot.ParkMiller(1)
        self.assertEqual([generator.next_value() for _ in range(10000)][-1], 1043618065)
        self.assertEqual(repr(generator), "ParkMiller(1043618065)")
        numbers, again = lot.ParkMiller(1), lot.ParkMiller(1)
        self.assertEqual(list(itertools.islice(numbers, 3)), [again.number(), again.number(), again.number()])


class Refusals(unittest.TestCase):
    def test_event(self):
        with lot.Kernel() as kernel:
            kernel.make_currency("alice")
            with self.assertRaises(Refused) as raised:
                kernel.make_currency("alice")
            refused = raised.exception
            self.assertEqual(refused.refusal, Refusal.NAME_TAKEN)
            self.assertEqual(refused.reply, Reply(ReplyKind.REFUSED, refusal=Refusal.NAME_TAKEN))
            self.assertEqual(refused.event, lot.events.make_currency("alice"))
            self.assertEqual(str(refused), "NAME_TAKEN: Event(kind=EventKind.MAKE_CURRENCY, name='alice')")

    def test_trap(self):
        """A refused trap costs its ticks, which stand in its reply."""
        with funded(lot.Kernel(), ("a", 1)) as kernel:
            kernel.draw(1, 0)
            with self.assertRaises(Refused) as raised:
                kernel.unlock(1, mutex=1, number=0, ticks=9)
            self.assertEqual(raised.exception.refusal, Refusal.NOT_OWNER)
            wanted = trapped(1, 10, Outcome.REFUSED, refusal=Refusal.NOT_OWNER)
            self.assertEqual(raised.exception.reply, wanted)
            self.assertEqual(kernel.runner(1), lot.Runner(thread=1, used=10))

    def test_unchecked(self):
        refused = Reply(ReplyKind.REFUSED, refusal=Refusal.NOT_RUNNING)
        with lot.Kernel() as kernel:
            self.assertEqual(kernel.expire(1, check=False), refused)
        with lot.Kernel(check=False) as kernel:
            self.assertEqual(kernel.expire(1), refused)
            self.assertRaises(Refused, kernel.expire, 1, check=True)

    def test_each_refusal(self):
        """Each refusal but BAD_NAME, which is a status here, and LOCK_CYCLE, by the events that lead to it."""
        make = lot.events
        start = [make.make_currency("u"), make.make_ticket(5, "u"), make.make_funded("a", 9)]
        rows = {
            Refusal.NAME_TAKEN: [make.make_thread("u")],
            Refusal.NO_CURRENCY: [make.make_ticket(1, "v")],
            Refusal.NO_TICKET: [make.unfund(9)],
            Refusal.NO_TARGET: [make.fund(1, "v")],
            Refusal.BAD_AMOUNT: [make.make_ticket(0)],
            Refusal.IN_USE: [make.remove_currency("u")],
            Refusal.FUNDING: [make.remove_ticket(2)],
            Refusal.NOT_FUNDING: [make.unfund(1)],
            Refusal.CYCLE: [make.fund(1, "u")],
            Refusal.BASE_FIXED: [make.remove_currency("base")],
            Refusal.DEAD_THREAD: [make.draw(1, 0), make.exit(1), make.fund(1, "a")],
            Refusal.FULL: [make.make_currency("v"), make.make_currency("w")],
            Refusal.NO_SCRIPT: [make.make_thread("b", script=2)],
            Refusal.NO_THREAD: [make.remove_thread("u")],
            Refusal.ALIVE: [make.remove_thread("a")],
            Refusal.BAD_PROCESSOR: [make.draw(3, 0)],
            Refusal.BUSY: [make.draw(1, 0), make.draw(1, 0)],
            Refusal.NOT_RUNNING: [make.yield_(2)],
            Refusal.BAD_TICKS: [make.draw(1, 0), make.yield_(1, 100)],
            Refusal.NOT_ASLEEP: [make.wake(1)],
            Refusal.NO_PORT: [make.draw(1, 0), make.call(1, 3, 0)],
            Refusal.NOTHING_TO_REPLY: [make.draw(1, 0), make.reply(1, 0)],
            Refusal.NO_MUTEX: [make.draw(1, 0), make.lock(1, 0)],
            Refusal.NOT_OWNER: [make.draw(1, 0), make.unlock(1, 1, 0)],
            Refusal.ALREADY_OWNER: [make.draw(1, 0), make.lock(1, 1), make.lock(1, 1)],
        }
        self.assertEqual(set(Refusal) - set(rows), {Refusal.BAD_NAME, Refusal.LOCK_CYCLE})
        self.assert_refused(start, rows)

    def test_by_number(self):
        """What differs from commands by name: numbers that nothing has, and a currency or a thread by its kind."""
        make = lot.events
        start = [make.make_currency("u"), make.make_ticket(5, "u"), make.make_funded("a", 9)]
        for refusal, events in {
            Refusal.NO_CURRENCY: [
                make.make_ticket(1, 2), make.make_funded("b", 1, NARROW - 1), make.remove_currency(2),
            ],
            Refusal.NO_TARGET: [make.fund_currency(1, 2), make.fund_thread(1, 0), make.fund_thread(1, 2)],
            Refusal.NO_THREAD: [make.remove_thread(0), make.remove_thread(2), make.kill(0), make.kill(2)],
            Refusal.BASE_FIXED: [make.fund_currency(1, 0), make.remove_currency(0)],
            Refusal.IN_USE: [make.remove_currency(1)],
            Refusal.CYCLE: [make.fund_currency(1, 1)],
            Refusal.ALIVE: [make.remove_thread(1)],
            Refusal.FUNDING: [make.fund_thread(2, 1)],
        }.items():
            for event in events:
                self.assert_refused(start, {refusal: [event]})

    def assert_refused(self, start, rows):
        """The last event of each row is refused by what the row is for."""
        for refusal, row in rows.items():
            with self.subTest(refusal=refusal, event=row[-1]), lot.Kernel(currencies=2) as kernel:
                for event in start + row[:-1]:
                    kernel.event(event)
                with self.assertRaises(Refused) as raised:
                    kernel.event(row[-1])
                self.assertEqual(raised.exception.refusal, refusal)

    def test_lock_cycle(self):
        with funded(lot.Kernel(), ("a", 1), ("b", 1)) as kernel:
            for processor in (1, 2):
                kernel.draw(processor, 0)
                kernel.lock(processor, mutex=processor)
            kernel.lock(1, mutex=2)
            with self.assertRaises(Refused) as raised:
                kernel.lock(2, mutex=1)
            self.assertEqual(raised.exception.refusal, Refusal.LOCK_CYCLE)


class Taken(unittest.TestCase):
    """What calls take, and what they don't."""

    def status_of(self, call, *arguments, **fields):
        with self.assertRaises(lot.LotError) as raised:
            call(*arguments, **fields)
        return raised.exception.status

    def test_unknown_fields(self):
        with funded(lot.Kernel(), ("a", 5)) as kernel:
            for fields in [{"numbr": 7}, {"Processor": 1}, {"low": 1}]:
                with self.assertRaises(TypeError, msg=fields):
                    kernel.draw(processor=1, **fields)
            for call in [kernel.draw, kernel.expire, kernel.call, kernel.unlock]:
                with self.assertRaises(TypeError):
                    call()
            self.assertIsNone(kernel.runner(1))
            self.assertRaises(TypeError, kernel.event, EventKind.DRAW, processor=1)
        for call in [lambda: lot.Event(numbr=7), lambda: lot.Sizes(thread=3), lambda: lot.Kernel(thread=3)]:
            self.assertRaises(TypeError, call)
        # Without a field that the kind reads, with one that it doesn't, and with both.
        self.assertRaises(TypeError, lot.Event, EventKind.DRAW, processor=1)
        self.assertRaises(TypeError, lot.Event, EventKind.DRAW, processor=1, number=9, ticks=5)
        self.assertRaises(TypeError, lot.Event, EventKind.DRAW, processor=1, ticks=5)
        self.assertEqual(lot.Event(12, processor=1, number=9), lot.events.draw(1, 9))
        self.assertRaises(ValueError, lot.Event, len(EventKind) + 1)

    def test_one_method_for_each_event(self):
        """It has the name and the parameters of the function that makes the event."""
        for name, function in inspect.getmembers(lot.events, inspect.isfunction):
            if function.__module__ == "lot.events":
                *fields, check = list(inspect.signature(getattr(lot.Kernel, name)).parameters.values())[1:]
                self.assertEqual(fields, list(inspect.signature(function).parameters.values()), name)
                self.assertEqual((check.name, check.kind, check.default), ("check", check.KEYWORD_ONLY, None))

    def test_name_or_number(self):
        """A str makes the event by name, and an int the one by number."""
        make, numbered = lot.events, set()
        for name, function in inspect.getmembers(make, inspect.isfunction):
            kinds = inspect.signature(function).parameters
            for either in [it for it in kinds if kinds[it].annotation == Union[str, int]]:
                given = {it: 5 if kinds[it].annotation is int else "a" for it in kinds}
                by_name, by_number = function(**given), function(**{**given, either: 3})
                self.assertEqual(by_name.kind.name, name.upper())
                self.assertIn(by_number.kind.name, [f"{name.upper()}_NUMBERED", f"{name.upper()}_IN"])
                numbered.add(by_number.kind)
        numbered |= {EventKind.FUND_CURRENCY, EventKind.FUND_THREAD, EventKind.WAKE}
        by_number = {kind for kind in EventKind if {"currency_number", "thread"} & set(lot.events.READS[kind])}
        self.assertEqual(numbered, by_number)
        self.assertEqual(make.make_ticket(5, 3), lot.Event(EventKind.MAKE_TICKET_IN, amount=5, currency_number=3))
        self.assertRaises(TypeError, lot.Event, EventKind.MAKE_TICKET, amount=5, currency=3)
        self.assertRaises(TypeError, lot.Event, EventKind.MAKE_TICKET_IN, amount=5, currency_number="u")

    def test_numbers_out_of_range(self):
        make = lot.events
        for end, calls in {
            NARROW: [
                lambda it: make.expire(it), lambda it: make.yield_(1, it), lambda it: make.call(1, it, 0),
                lambda it: make.call(1, 1, it), lambda it: make.lock(1, it), lambda it: make.make_thread("a", it),
                lambda it: make.sleep(1, it), lambda it: make.preempt(1, it), lambda it: make.overrun(1, it),
                lambda it: make.wake(it), lambda it: make.fund_thread(1, it), lambda it: make.fund_currency(1, it),
            ],
            WIDE: [
                lambda it: make.make_ticket(it), lambda it: make.unfund(it), lambda it: make.set_ticket(1, it),
                lambda it: make.fund_thread(it, 1), lambda it: make.make_ticket(it, 1),
            ],
            WIDEST: [lambda it: make.draw(1, it), lambda it: make.unlock(1, 1, it)],
        }.items():
            for call in calls:
                for number in [-1, end, end + 5]:
                    self.assertRaises(OverflowError, call, number)
                for number in [True, 1.0, "1", None, b"1", 1j]:
                    self.assertRaises(TypeError, call, number)
                call(0)
                call(end - 1)
        for call in [
            make.remove_thread, make.remove_currency, make.kill, lambda it: make.make_funded("a", 1, it),
        ]:
            for number in [-1, NARROW]:
                self.assertRaises(OverflowError, call, number)
            for number in [True, 1.0, None, b"1", 1j]:
                self.assertRaises(TypeError, call, number)
            call(NARROW - 1)
        with lot.Kernel() as kernel:
            self.assertRaises(OverflowError, kernel.draw, NARROW + 1, 0)
            self.assertRaises(TypeError, kernel.draw, 1, 0.5)
            for row in [kernel.ticket_row, kernel.currency_row, kernel.thread_row, kernel.runner, kernel.script_of]:
                self.assertRaises(OverflowError, row, NARROW)
                self.assertRaises(TypeError, row, True)
                self.assertIsNone(row(NARROW - 1))
            self.assertEqual(kernel.ticket_count(), 0)
            self.assertEqual(kernel.make_ticket(WIDE - 1, check=False).refusal, Refusal.BAD_AMOUNT)
            self.assertEqual(kernel.draw(NARROW - 1, WIDEST - 1, check=False).refusal, Refusal.BAD_PROCESSOR)
        for call, arguments in [
            (lot.ParkMiller, [NARROW + 1]), (lot.weight, [WIDE, 0, 100]), (lot.weight, [1, NARROW, 100]),
            (lot.weight, [1, 0, NARROW + 100]), (lot.winner, [[WIDEST], 0]), (lot.winner, [[1], -1]),
        ]:
            with self.assertRaises(OverflowError, msg=(call, arguments)):
                call(*arguments)
        self.assertRaises(OverflowError, lot.Kernel, threads=NARROW + 1)
        self.assertRaises(TypeError, lot.Kernel, threads=3.0)
        self.assertRaises(TypeError, lot.ParkMiller, 1.0)

    def test_other_integers(self):
        class Seven:
            def __index__(self):
                return 7

        self.assertEqual(lot.events.draw(Seven(), Seven()), lot.events.draw(7, 7))

    def test_names(self):
        with lot.Kernel() as kernel:
            for name in [None, 5, b"a"]:
                self.assertRaises(TypeError, kernel.make_currency, name)
                self.assertRaises(TypeError, kernel.fund, 1, name)
            for name in ["a-very-long-name-", "é" * 9, "x" * 5000]:
                self.assertEqual(self.status_of(kernel.make_currency, name), Status.LONG_NAME)
            for name in ["", "Base", "1a", "é", "a\0", "a\0b", "\udc80"]:
                self.assertEqual(self.status_of(kernel.make_currency, name), Status.BAD_NAME)
                self.assertEqual(self.status_of(kernel.make_thread, name), Status.BAD_NAME)
                self.assertEqual(self.status_of(kernel.kill, name), Status.BAD_NAME)
            kernel.make_currency("a-16-bytes-name_")
            self.assertEqual(kernel.currency_row(1).name, "a-16-bytes-name_")
        for byte in range(256):
            with lot.Kernel() as good, lot.Kernel(plain_names=True) as plain:
                for kernel, is_taken in (good, chr(byte) in "abcdefghijklmnopqrstuvwxyz"), (plain, 33 <= byte <= 126):
                    if is_taken:
                        kernel.make_thread(chr(byte))
                        self.assertEqual(kernel.thread_row(1).name, chr(byte))
                    else:
                        self.assertEqual(self.status_of(kernel.make_thread, chr(byte)), Status.BAD_NAME)
        with lot.Kernel(plain_names=True) as kernel:
            for name in ["", "a b", "é", "a\0"]:
                self.assertEqual(self.status_of(kernel.make_funded, name, 1), Status.BAD_NAME)
            for event in [lot.events.make_currency, lot.events.kill, lot.events.remove_thread]:
                self.assertRaises(TypeError, event, None)
            self.assertRaises(TypeError, lot.Event, EventKind.MAKE_THREAD)
            self.assertRaises(TypeError, lot.Event, EventKind.MAKE_THREAD, name="a")
            self.assertRaises(TypeError, lot.Event, EventKind.FUND, ticket=1)
            self.assertRaises(TypeError, lot.events.make_thread, 5)

    def test_what_no_call_takes(self):
        self.assertEqual(self.status_of(lot.Kernel, threads=4097), Status.BAD_LIMITS)
        self.assertEqual(self.status_of(lot.Kernel.bytes_of, lot.Sizes(0, 1, 1, 0, 0, 1, 0, 1, 1)), Status.BAD_LIMITS)
        sizes = lot.Sizes(1, 1, 1, 0, 0, 1, 0, 1, 1)
        self.assertLess(lot.Kernel.bytes_of(sizes), 2560)
        again = dataclasses.replace(sizes, reuse=True)
        self.assertEqual(lot.Kernel.bytes_of(again), lot.Kernel.bytes_of(sizes) + 16)
        ports = dataclasses.replace(sizes, ports=2)
        lends, mutexes = dataclasses.replace(ports, queued_lend=True), dataclasses.replace(ports, mutexes=2)
        self.assertEqual(lot.Kernel.bytes_of(lends), lot.Kernel.bytes_of(mutexes))
        self.assertEqual(self.status_of(lot.ParkMiller, 0), Status.BAD_SEED)

    def test_closed(self):
        kernel = funded(lot.Kernel(), ("a", 1))
        self.assertFalse(kernel.closed)
        for _ in range(2):
            kernel.close()
            self.assertTrue(kernel.closed)
            self.assertEqual(repr(kernel), "<lot.Kernel, closed>")
        for call, arguments in [
            (kernel.draw, (1, 0)), (kernel.list_tickets, ()),
            (kernel.run, ([],)), (kernel.run, ([lot.events.draw(1, 0)],)),
            (kernel.ticket_row, (1,)), (kernel.currency_row, (0,)), (kernel.thread_row, (1,)),
            (kernel.runner, (1,)), (kernel.script_of, (1,)), (kernel.ticket_count, ()),
            (kernel.currency_count, ()), (kernel.sizes, ()), (kernel.meter, ()),
        ]:
            self.assertEqual(self.status_of(call, *arguments), Status.NO_KERNEL, call)


class Run(unittest.TestCase):
    def test_same_as_one_by_one(self):
        make = lot.events
        run = [make.make_funded("a", 10), make.make_funded("b", 5)]
        for number in itertools.islice(lot.ParkMiller(1), 50):
            run += [make.draw(1, number), make.yield_(1, 19)]
        with lot.Kernel() as one, lot.Kernel() as other:
            self.assertEqual(one.run(iter(run)), [other.event(event) for event in run])
            self.assertEqual(one.thread_row(1), other.thread_row(1))
            self.assertEqual(one.run([]), [])

    def test_faulty_event(self):
        run = [lot.events.make_currency(name) for name in ("a", "b", "C", "d")]
        with lot.Kernel() as kernel:
            with self.assertRaises(lot.RunError) as raised:
                kernel.run(run)
            error = raised.exception
            self.assertEqual((error.status, error.done), (Status.BAD_NAME, 2))
            made = tuple(Reply(ReplyKind.CURRENCY, currency=currency) for currency in (1, 2))
            self.assertEqual(error.replies, made)
            self.assertEqual(str(error)[:30], "after 2 events of the run: a n")
            self.assertEqual(kernel.currency_count(), 3)
            with self.assertRaises(lot.RunError) as raised:
                kernel.run([lot.events.make_currency("x" * 17)])
            self.assertEqual((raised.exception.status, raised.exception.done), (Status.LONG_NAME, 0))

    def test_refused_event(self):
        run = [lot.events.make_currency(name) for name in ("a", "a", "b", "b")]
        wanted = [
            Reply(ReplyKind.CURRENCY, currency=1), refused_for(Refusal.NAME_TAKEN),
            Reply(ReplyKind.CURRENCY, currency=2), refused_for(Refusal.NAME_TAKEN),
        ]
        with lot.Kernel() as kernel:
            with self.assertRaises(Refused) as raised:
                kernel.run(run)
            self.assertEqual((raised.exception.event, raised.exception.replies), (run[1], tuple(wanted)))
        with lot.Kernel() as kernel:
            self.assertEqual(kernel.run(run, check=False), wanted)

    def test_what_is_no_event(self):
        with lot.Kernel() as kernel:
            self.assertRaises(TypeError, kernel.run, [lot.events.make_currency("a"), EventKind.DRAW])
            self.assertRaises(TypeError, kernel.event, "draw")
            self.assertEqual(kernel.currency_count(), 1)


class Threads(unittest.TestCase):
    DRAWS = 2000

    def test_one_kernel(self):
        """Four threads of Python have a processor each; eight threads of the kernel are there for them."""
        with funded(lot.Kernel(processors=4), *((name, 100) for name in "abcdefgh")) as kernel:
            start = threading.Barrier(4)

            def drive(processor):
                start.wait()
                for number in itertools.islice(lot.ParkMiller(processor), self.DRAWS):
                    won = kernel.draw(processor, number)
                    if kernel.expire(processor).thread != won.thread:
                        return "another thread's reply"
                return "done"

            with ThreadPoolExecutor(4) as pool:
                self.assertEqual(list(pool.map(drive, (1, 2, 3, 4))), ["done"] * 4)
            rows = [kernel.thread_row(thread) for thread in range(1, 9)]
            self.assertEqual(sum(row.quanta for row in rows), 4 * self.DRAWS)
            self.assertEqual(sum(row.ticks for row in rows), 4 * self.DRAWS * 100)

    def test_one_generator(self):
        generator = lot.ParkMiller(7)
        with ThreadPoolExecutor(4) as pool:
            numbers = list(pool.map(lambda _: next(generator), range(self.DRAWS)))
        self.assertEqual(sorted(numbers), sorted(itertools.islice(lot.ParkMiller(7), self.DRAWS)))

    def test_closed_meanwhile(self):
        kernel = lot.Kernel()

        def count():
            try:
                while True:
                    kernel.ticket_count()
            except lot.LotError as error:
                return error.status

        with ThreadPoolExecutor(2) as pool:
            counts = [pool.submit(count) for _ in range(2)]
            kernel.close()
            self.assertEqual([it.result() for it in counts], [Status.NO_KERNEL] * 2)


class Values(unittest.TestCase):
    def test_pickles(self):
        reply = trapped(1, 10, Outcome.REFUSED, refusal=Refusal.NOT_OWNER)
        event = lot.events.unlock(1, 1, WIDEST - 1, 9)
        for again in [lambda it: pickle.loads(pickle.dumps(it)), copy.copy, copy.deepcopy]:
            status = ThreadStatus(ThreadState.READY)
            values = [
                reply, event, status, Refusal.CYCLE, lot.Runner(1, 2), lot.Drawn(1, 2, 3), lot.events.kill("a"),
                lot.events.kill(3), EventKind.KILL,
            ]
            for value in values:
                self.assertEqual(again(value), value)
                self.assertEqual(repr(again(value)), repr(value))
            for error in [
                lot.LotError(Status.BAD_SEED), lot.RunError(Status.BAD_NAME, [reply, reply]), Refused(event, reply),
                Refused(event, reply, [reply]),
            ]:
                other = again(error)
                self.assertIs(type(other), type(error))
                self.assertEqual((vars(other), str(other)), (vars(error), str(error)))

    def test_errors(self):
        self.assertTrue(issubclass(Refused, lot.Error) and issubclass(lot.LotError, lot.Error))
        self.assertFalse(issubclass(Refused, lot.LotError))
        for status in Status:
            self.assertTrue(str(lot.LotError(status)))

    def test_frozen(self):
        for value in [Reply(ReplyKind.DONE), lot.events.expire(1), lot.Runner(1, 2), ThreadStatus(ThreadState.READY)]:
            with self.assertRaises(dataclasses.FrozenInstanceError):
                value.kind = 5

    def test_no_copy_of_a_kernel(self):
        kernel = lot.Kernel()
        for again in pickle.dumps, copy.copy, copy.deepcopy:
            with self.assertRaisesRegex(TypeError, "a Kernel can't be copied or pickled"):
                again(kernel)
        self.assertFalse(kernel.closed)

    def test_copies_of_a_generator(self):
        for again in [lambda it: pickle.loads(pickle.dumps(it)), copy.copy, copy.deepcopy]:
            first = lot.ParkMiller(1)
            other = again(first)
            self.assertEqual([first.next_value(), first.next_value()], [16807, 282475249])
            self.assertEqual([other.next_value(), other.next_value()], [16807, 282475249])

    def test_reprs(self):
        for value, wanted in [
            (Reply(ReplyKind.DONE), "Reply(kind=ReplyKind.DONE)"),
            (lot.events.call(1, 2, 0), "Event(kind=EventKind.CALL, processor=1, ticks=0, port=2, sent=0)"),
            (lot.events.kill(3), "Event(kind=EventKind.KILL_NUMBERED, thread=3)"),
            (lot.events.make_thread(script=2), "Event(kind=EventKind.MAKE_THREAD, script=2)"),
            (lot.Runner(1, 0), "Runner(thread=1, used=0)"),
            (ThreadStatus(ThreadState.QUEUED, other=2), "ThreadStatus(state=ThreadState.QUEUED, other=2)"),
        ]:
            self.assertEqual(repr(value), wanted)
            self.assertEqual(eval(wanted, vars(lot)), value)


class Loading(unittest.TestCase):
    def test_version(self):
        self.assertEqual(lot.library_version(), lot.__version__)

    def test_order(self):
        package = Path(lot.__file__).resolve().parent
        with mock.patch.dict(os.environ, LOT_SHARED="/there.so"):
            self.assertEqual(lot.library.found(), Path("/there.so"))
        with mock.patch.dict(os.environ):
            os.environ.pop("LOT_SHARED", None)
            with mock.patch.object(Path, "exists", return_value=True):
                self.assertEqual(lot.library.found(), package / "liblot.so")
            release = package.parents[2] / "dist" / f"{platform.machine()}-linux" / "liblot.so"
            with mock.patch.object(Path, "exists", autospec=True, side_effect=lambda path: path == release):
                self.assertEqual(lot.library.found(), release)
            with mock.patch.object(Path, "exists", return_value=False):
                self.assertRaises(ImportError, lot.library.found)


if __name__ == "__main__":
    unittest.main()
