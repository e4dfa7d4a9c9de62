"""Events as values, for `Kernel.run` and `Kernel.event`. For each `Kernel` has a method of its name.

Made by `bindings/write_tables` of `crates/lot_c/specs/Numbers.antt`.

Give a currency or a thread by its name, a `str`, or by its number, an `int`. The kind of the event depends on which.

>>> make_ticket(amount=5, currency="alice")
Event(kind=EventKind.MAKE_TICKET, amount=5, currency='alice')
>>> make_ticket(amount=5, currency=3)
Event(kind=EventKind.MAKE_TICKET_IN, amount=5, currency_number=3)
>>> make_thread(None)  # without a name
Event(kind=EventKind.MAKE_THREAD, script=1)
"""

from typing import Optional, Union, cast

from .event import Event as Event
from .numbers import READS as READS, EventKind
from .records import CurrencyReply, ExpiredReply, FundedReply, ThreadReply, TicketReply, TrappedReply, Reply


def make_ticket(amount: int, currency: Union[str, int] = "base") -> Event:
    """The event of `Kernel.make_ticket`."""
    if not isinstance(currency, str):
        return Event(EventKind.MAKE_TICKET_IN, amount=amount, currency_number=currency)
    return Event(EventKind.MAKE_TICKET, amount=amount, currency=currency)


def remove_ticket(ticket: int) -> Event:
    """The event of `Kernel.remove_ticket`."""
    return Event(EventKind.REMOVE_TICKET, ticket=ticket)


def make_currency(name: str) -> Event:
    """The event of `Kernel.make_currency`."""
    return Event(EventKind.MAKE_CURRENCY, name=name)


def remove_currency(currency: Union[str, int]) -> Event:
    """The event of `Kernel.remove_currency`."""
    if not isinstance(currency, str):
        return Event(EventKind.REMOVE_CURRENCY_NUMBERED, currency_number=currency)
    return Event(EventKind.REMOVE_CURRENCY, currency=currency)


def fund(ticket: int, target: str) -> Event:
    """The event of `Kernel.fund`."""
    return Event(EventKind.FUND, ticket=ticket, target=target)


def unfund(ticket: int) -> Event:
    """The event of `Kernel.unfund`."""
    return Event(EventKind.UNFUND, ticket=ticket)


def make_thread(name: Optional[str] = None, script: int = 1) -> Event:
    """The event of `Kernel.make_thread`."""
    return Event(EventKind.MAKE_THREAD, name=name, script=script)


def make_funded(name: Optional[str], amount: int, currency: Union[str, int] = "base", script: int = 1) -> Event:
    """The event of `Kernel.make_funded`."""
    if not isinstance(currency, str):
        return Event(EventKind.MAKE_FUNDED_IN, amount=amount, currency_number=currency, name=name, script=script)
    return Event(EventKind.MAKE_FUNDED, amount=amount, currency=currency, name=name, script=script)


def list_tickets() -> Event:
    """The event of `Kernel.list_tickets`."""
    return Event(EventKind.LIST_TICKETS)


def list_currencies() -> Event:
    """The event of `Kernel.list_currencies`."""
    return Event(EventKind.LIST_CURRENCIES)


def list_threads() -> Event:
    """The event of `Kernel.list_threads`."""
    return Event(EventKind.LIST_THREADS)


def draw(processor: int, number: int) -> Event:
    """The event of `Kernel.draw`."""
    return Event(EventKind.DRAW, processor=processor, number=number)


def expire(processor: int) -> Event:
    """The event of `Kernel.expire`."""
    return Event(EventKind.EXPIRE, processor=processor)


def yield_(processor: int, ticks: int = 0) -> Event:
    """The event of `Kernel.yield_`."""
    return Event(EventKind.YIELD, processor=processor, ticks=ticks)


def call(processor: int, port: int, sent: int, ticks: int = 0) -> Event:
    """The event of `Kernel.call`."""
    return Event(EventKind.CALL, processor=processor, ticks=ticks, port=port, sent=sent)


def receive(processor: int, port: int, ticks: int = 0) -> Event:
    """The event of `Kernel.receive`."""
    return Event(EventKind.RECEIVE, processor=processor, ticks=ticks, port=port)


def reply(processor: int, sent: int, ticks: int = 0) -> Event:
    """The event of `Kernel.reply`."""
    return Event(EventKind.REPLY, processor=processor, ticks=ticks, sent=sent)


def lock(processor: int, mutex: int, ticks: int = 0) -> Event:
    """The event of `Kernel.lock`."""
    return Event(EventKind.LOCK, processor=processor, ticks=ticks, mutex=mutex)


def unlock(processor: int, mutex: int, number: int, ticks: int = 0) -> Event:
    """The event of `Kernel.unlock`."""
    return Event(EventKind.UNLOCK, processor=processor, ticks=ticks, mutex=mutex, number=number)


def exit(processor: int, ticks: int = 0) -> Event:
    """The event of `Kernel.exit`."""
    return Event(EventKind.EXIT, processor=processor, ticks=ticks)


def serve(processor: int, port: int, sent: int, ticks: int = 0) -> Event:
    """The event of `Kernel.serve`."""
    return Event(EventKind.SERVE, processor=processor, ticks=ticks, port=port, sent=sent)


def set_ticket(ticket: int, amount: int) -> Event:
    """The event of `Kernel.set_ticket`."""
    return Event(EventKind.SET_TICKET, ticket=ticket, amount=amount)


def remove_thread(thread: Union[str, int]) -> Event:
    """The event of `Kernel.remove_thread`."""
    if not isinstance(thread, str):
        return Event(EventKind.REMOVE_THREAD_NUMBERED, thread=thread)
    return Event(EventKind.REMOVE_THREAD, name=thread)


def sleep(processor: int, ticks: int = 0) -> Event:
    """The event of `Kernel.sleep`."""
    return Event(EventKind.SLEEP, processor=processor, ticks=ticks)


def preempt(processor: int, ticks: int = 0) -> Event:
    """The event of `Kernel.preempt`."""
    return Event(EventKind.PREEMPT, processor=processor, ticks=ticks)


def overrun(processor: int, late: int) -> Event:
    """The event of `Kernel.overrun`."""
    return Event(EventKind.OVERRUN, processor=processor, late=late)


def wake(thread: int) -> Event:
    """The event of `Kernel.wake`."""
    return Event(EventKind.WAKE, thread=thread)


def fund_currency(ticket: int, currency: int) -> Event:
    """The event of `Kernel.fund_currency`."""
    return Event(EventKind.FUND_CURRENCY, ticket=ticket, currency_number=currency)


def fund_thread(ticket: int, thread: int) -> Event:
    """The event of `Kernel.fund_thread`."""
    return Event(EventKind.FUND_THREAD, ticket=ticket, thread=thread)


def kill(thread: Union[str, int]) -> Event:
    """The event of `Kernel.kill`."""
    if not isinstance(thread, str):
        return Event(EventKind.KILL_NUMBERED, thread=thread)
    return Event(EventKind.KILL, name=thread)


class Methods:
    """The methods of `Kernel` that make an event.

    A trap comes after `ticks` ticks of work, and costs one tick more.
    """

    def event(self, event: Event, *, check: Optional[bool] = None) -> Reply:
        """Makes an event, and returns the reply."""
        raise NotImplementedError

    def make_ticket(
        self, amount: int, currency: Union[str, int] = "base", *, check: Optional[bool] = None
    ) -> TicketReply:
        """Makes a ticket of this amount, 1 to 4294967295, issued in the currency. It funds nothing yet. Reply: TICKET.
        Refusals: BAD_AMOUNT, NO_CURRENCY, FULL.
        """
        return cast(TicketReply, self.event(make_ticket(amount, currency), check=check))

    def remove_ticket(self, ticket: int, *, check: Optional[bool] = None) -> Reply:
        """Removes a ticket that funds nothing. Its number is used again only with `reuse`. Reply: DONE. Refusals:
        NO_TICKET, FUNDING.
        """
        return self.event(remove_ticket(ticket), check=check)

    def make_currency(self, name: str, *, check: Optional[bool] = None) -> CurrencyReply:
        """Makes a currency, with a name that neither a currency nor a thread has, a dead one included. Reply:
        CURRENCY. Refusals: NAME_TAKEN, FULL.
        """
        return cast(CurrencyReply, self.event(make_currency(name), check=check))

    def remove_currency(self, currency: Union[str, int], *, check: Optional[bool] = None) -> Reply:
        """Removes a currency other than base that issues no ticket and that no ticket funds. Reply: DONE. Refusals:
        NO_CURRENCY, BASE_FIXED, IN_USE.
        """
        return self.event(remove_currency(currency), check=check)

    def fund(self, ticket: int, target: str, *, check: Optional[bool] = None) -> Reply:
        """Makes a ticket that funds nothing fund a currency other than base, or a thread that isn't dead. Reply: DONE.
        Refusals: NO_TICKET, NO_TARGET, BASE_FIXED, DEAD_THREAD, FUNDING, CYCLE.
        """
        return self.event(fund(ticket, target), check=check)

    def unfund(self, ticket: int, *, check: Optional[bool] = None) -> Reply:
        """Takes away the target of a ticket that funds something. Reply: DONE. Refusals: NO_TICKET, NOT_FUNDING."""
        return self.event(unfund(ticket), check=check)

    def make_thread(self, name: Optional[str] = None, script: int = 1, *, check: Optional[bool] = None) -> ThreadReply:
        """Makes a thread, with a name or without. It is ready, and nothing funds it yet. Its script, 1 to `scripts`,
        is a number that the kernel keeps for its caller. Reply: THREAD. Refusals: NAME_TAKEN, NO_SCRIPT, FULL.
        """
        return cast(ThreadReply, self.event(make_thread(name, script), check=check))

    def make_funded(
        self,
        name: Optional[str],
        amount: int,
        currency: Union[str, int] = "base",
        script: int = 1,
        *,
        check: Optional[bool] = None,
    ) -> FundedReply:
        """Makes a thread, with a name or without, and a ticket of this amount, 1 to 4294967295, which is issued in the
        currency and funds the thread. Reply: FUNDED. Refusals: BAD_AMOUNT, NO_CURRENCY, NAME_TAKEN, NO_SCRIPT,
        FULL.
        """
        return cast(FundedReply, self.event(make_funded(name, amount, currency, script), check=check))

    def list_tickets(self, *, check: Optional[bool] = None) -> Reply:
        """Requests a listing of the tickets. The reply contains no rows: read them one by one. Reply: LIST_TICKETS. It
        is never refused.
        """
        return self.event(list_tickets(), check=check)

    def list_currencies(self, *, check: Optional[bool] = None) -> Reply:
        """Requests a listing of the currencies. The reply contains no rows: read them one by one. Reply:
        LIST_CURRENCIES. It is never refused.
        """
        return self.event(list_currencies(), check=check)

    def list_threads(self, *, check: Optional[bool] = None) -> Reply:
        """Requests a listing of the threads. The reply contains no rows: read them one by one. Reply: LIST_THREADS. It
        is never refused.
        """
        return self.event(list_threads(), check=check)

    def draw(self, processor: int, number: int, *, check: Optional[bool] = None) -> Reply:
        """Holds a lottery over the ready threads with this number, any 128 bits. The winner runs on the processor,
        which must be idle. Reply: WINNER or IDLE. Refusals: BAD_PROCESSOR, BUSY.
        """
        return self.event(draw(processor, number), check=check)

    def expire(self, processor: int, *, check: Optional[bool] = None) -> ExpiredReply:
        """Ends the quantum of the thread that runs on the processor. The rest of the quantum counts as used. Reply:
        EXPIRED. Refusals: BAD_PROCESSOR, NOT_RUNNING.
        """
        return cast(ExpiredReply, self.event(expire(processor), check=check))

    def yield_(self, processor: int, ticks: int = 0, *, check: Optional[bool] = None) -> TrappedReply:
        """Gives up the processor. The thread is compensated for the rest of its quantum. Outcome: YIELDED. Refusals:
        BAD_PROCESSOR, NOT_RUNNING, BAD_TICKS.
        """
        return cast(TrappedReply, self.event(yield_(processor, ticks), check=check))

    def call(
        self, processor: int, port: int, sent: int, ticks: int = 0, *, check: Optional[bool] = None
    ) -> TrappedReply:
        """Sends a number to a port, and waits for the reply. The thread lends to the one that serves it; with
        `queued_lend` also, while its call is queued, to the one that took the last call at the port. Outcome:
        SERVED_BY or QUEUED. Refusals: BAD_PROCESSOR, NOT_RUNNING, BAD_TICKS, NO_PORT.
        """
        return cast(TrappedReply, self.event(call(processor, port, sent, ticks), check=check))

    def receive(self, processor: int, port: int, ticks: int = 0, *, check: Optional[bool] = None) -> TrappedReply:
        """Takes the call that has waited longest at a port, or waits for one. Outcome: RECEIVED or WAITS. Refusals:
        BAD_PROCESSOR, NOT_RUNNING, BAD_TICKS, NO_PORT.
        """
        return cast(TrappedReply, self.event(receive(processor, port, ticks), check=check))

    def reply(self, processor: int, sent: int, ticks: int = 0, *, check: Optional[bool] = None) -> TrappedReply:
        """Replies with a number to the client that the thread took first. Outcome: REPLIED. Refusals: BAD_PROCESSOR,
        NOT_RUNNING, BAD_TICKS, NOTHING_TO_REPLY.
        """
        return cast(TrappedReply, self.event(reply(processor, sent, ticks), check=check))

    def lock(self, processor: int, mutex: int, ticks: int = 0, *, check: Optional[bool] = None) -> TrappedReply:
        """Takes a mutex, or waits for it and lends to its owner. Outcome: LOCKED or WAITS. Refusals: BAD_PROCESSOR,
        NOT_RUNNING, BAD_TICKS, NO_MUTEX, ALREADY_OWNER, LOCK_CYCLE.
        """
        return cast(TrappedReply, self.event(lock(processor, mutex, ticks), check=check))

    def unlock(
        self, processor: int, mutex: int, number: int, ticks: int = 0, *, check: Optional[bool] = None
    ) -> TrappedReply:
        """Frees a mutex, or passes it on to a waiter by a lottery with this number, any 128 bits. Outcome: FREED or
        PASSED. Refusals: BAD_PROCESSOR, NOT_RUNNING, BAD_TICKS, NO_MUTEX, NOT_OWNER.
        """
        return cast(TrappedReply, self.event(unlock(processor, mutex, number, ticks), check=check))

    def exit(self, processor: int, ticks: int = 0, *, check: Optional[bool] = None) -> TrappedReply:
        """Ends the thread. Its name, its mutexes, its clients and the tickets that fund it stay as they are. Outcome:
        EXITED. Refusals: BAD_PROCESSOR, NOT_RUNNING, BAD_TICKS.
        """
        return cast(TrappedReply, self.event(exit(processor, ticks), check=check))

    def serve(
        self, processor: int, port: int, sent: int, ticks: int = 0, *, check: Optional[bool] = None
    ) -> TrappedReply:
        """Replies with a number to the client that the thread took first, and then receives a call at a port or waits
        for one. Outcome: REPLIED_THEN_RECEIVED or REPLIED_THEN_WAITS. Refusals: BAD_PROCESSOR, NOT_RUNNING,
        BAD_TICKS, NO_PORT, NOTHING_TO_REPLY.
        """
        return cast(TrappedReply, self.event(serve(processor, port, sent, ticks), check=check))

    def set_ticket(self, ticket: int, amount: int, *, check: Optional[bool] = None) -> Reply:
        """Sets a ticket's amount, 1 to 4294967295, which counts at once: inflation and deflation (3.2). The ticket
        keeps its target. Reply: DONE. Refusals: BAD_AMOUNT, NO_TICKET.
        """
        return self.event(set_ticket(ticket, amount), check=check)

    def remove_thread(self, thread: Union[str, int], *, check: Optional[bool] = None) -> Reply:
        """Removes a dead thread that no ticket funds, and that has no client and owns no mutex. Its name may be used
        again, its number only with `reuse`. Reply: DONE. Refusals: NO_THREAD, ALIVE, IN_USE.
        """
        return self.event(remove_thread(thread), check=check)

    def sleep(self, processor: int, ticks: int = 0, *, check: Optional[bool] = None) -> TrappedReply:
        """Sleeps until a wake. The thread's tickets are inactive meanwhile; it keeps its mutexes and its clients, and
        is compensated for the rest of its quantum. Outcome: SLEPT. Refusals: BAD_PROCESSOR, NOT_RUNNING, BAD_TICKS.
        """
        return cast(TrappedReply, self.event(sleep(processor, ticks), check=check))

    def preempt(self, processor: int, ticks: int = 0, *, check: Optional[bool] = None) -> ExpiredReply:
        """Preempts the thread that runs on the processor, after `ticks` ticks of work, at most the rest of its
        quantum. The thread becomes ready, is charged these ticks, and isn't compensated. Reply: EXPIRED. Refusals:
        BAD_PROCESSOR, NOT_RUNNING, BAD_TICKS.
        """
        return cast(ExpiredReply, self.event(preempt(processor, ticks), check=check))

    def overrun(self, processor: int, late: int, *, check: Optional[bool] = None) -> ExpiredReply:
        """Ends the quantum of the thread that runs on the processor, `late` ticks after its time. The rest of the
        quantum and the late ticks count as used: until the thread next wins, its weight is value * quantum /
        (quantum + late), rounded down, but at least 1 if its value is. The quantum and the late ticks together are
        at most 4294967295. Reply: EXPIRED. Refusals: BAD_PROCESSOR, NOT_RUNNING, BAD_TICKS.
        """
        return cast(ExpiredReply, self.event(overrun(processor, late), check=check))

    def wake(self, thread: int, *, check: Optional[bool] = None) -> Reply:
        """Makes a sleeping thread ready, with the compensation from when it went to sleep. Reply: DONE. Refusals:
        NO_THREAD, NOT_ASLEEP.
        """
        return self.event(wake(thread), check=check)

    def fund_currency(self, ticket: int, currency: int, *, check: Optional[bool] = None) -> Reply:
        """The same as `fund`, given the number of the currency. Reply: DONE. Refusals: NO_TICKET, NO_TARGET,
        BASE_FIXED, FUNDING, CYCLE.
        """
        return self.event(fund_currency(ticket, currency), check=check)

    def fund_thread(self, ticket: int, thread: int, *, check: Optional[bool] = None) -> Reply:
        """The same as `fund`, given the number of the thread. Reply: DONE. Refusals: NO_TICKET, NO_TARGET,
        DEAD_THREAD, FUNDING.
        """
        return self.event(fund_thread(ticket, thread), check=check)

    def kill(self, thread: Union[str, int], *, check: Optional[bool] = None) -> Reply:
        """Ends a thread, whatever its status. If it runs, its processor is idle then, and it is charged nothing more:
        to charge what it ran, preempt it first. Its clients are ready, with nothing delivered. Each of its mutexes
        passes to the thread that has waited longest for it. A thread that exits keeps its clients and its mutexes.
        Reply: DONE. Refusals: NO_THREAD, DEAD_THREAD.
        """
        return self.event(kill(thread), check=check)
