"""A kernel."""

import threading
from ctypes import Structure, byref, c_size_t, c_uint32, c_uint64
from typing import Any, Iterable, List, NoReturn, Optional, Sequence, Union

from . import events, library
from .errors import Refused, RunError
from .event import Event
from .library import calls, must
from .numbers import Status
from .ranges import NARROW, checked
from .records import CurrencyRow, Meter, Reply, Runner, Sizes, ThreadRow, TicketRow


class Kernel(events.Methods):
    """A kernel. It allocates all its memory when it is made, and frees it in `close` or at the end of a `with`.

    Its sizes are those of `Sizes`. It begins with the currency base alone. Each event has a method, which returns the
    kernel's reply; docs/MACHINE.md of the repository defines the effect of each event.

    Refusals: a refused event raises `Refused`, and so does a refused trap. With `check=False`, for the kernel or for
    one event, the method returns the reply instead. Then look at its `refusal` first: what a method's type promises,
    as `make_thread` does a `thread`, a refusal hasn't got.

    Names have 1 to 16 bytes: a letter a to z, followed by letters a to z, digits, '_' or '-'; with `plain_names` any
    printable ASCII but the space. Other names raise `LotError`, with `Status.LONG_NAME` or `Status.BAD_NAME`. A thread
    needs no name: make it with `None`. Any number of threads may have none, and their numbers refer to them.

    Numbers: `TypeError` for a value that is no integer, or a bool, and `OverflowError` for a number that is negative or
    too large for its field: it must be below 2 ** 32, or below 2 ** 64 for amounts and tickets, or below 2 ** 128 for
    drawn numbers. The kernel checks whether the processor, ticket, port and so on exists. Tickets, threads, processors,
    ports, mutexes and scripts are numbered from 1, currencies from 0, which is base.

    By name or by number: where a method takes a currency or a thread as `Union[str, int]`, a `str` is its name and an
    `int` its number, with equal effects and refusals. A lookup by number takes constant time; a lookup by name
    compares the name with the few that are in its bucket of an index.

    >>> with Kernel() as kernel:
    ...     alice = kernel.make_currency("alice").currency
    ...     kernel.fund_currency(kernel.make_ticket(100).ticket, alice)
    ...     kernel.make_funded("worker", 10, alice)
    ...     kernel.thread_row(1).value
    Reply(kind=ReplyKind.DONE)
    Reply(kind=ReplyKind.FUNDED, ticket=2, thread=1)
    100

    >>> with Kernel(plain_names=True) as kernel:
    ...     kernel.make_funded("Job#1", 10)
    ...     kernel.make_funded(None, 5)
    ...     kernel.thread_row(1).name, kernel.thread_row(2).name
    ...     row = kernel.ticket_row(2)
    ...     row.target, row.target_kind, row.target_number
    Reply(kind=ReplyKind.FUNDED, ticket=1, thread=1)
    Reply(kind=ReplyKind.FUNDED, ticket=2, thread=2)
    ('Job#1', None)
    (None, TargetKind.THREAD, 2)

    Python threads may share a kernel: calls wait for each other. A signal handler must not call one, since the call
    that it interrupts may hold the lock. Each call of a closed kernel raises `LotError` with `Status.NO_KERNEL`.

    The constructor raises `LotError` with `Status.BAD_LIMITS` for sizes out of their bounds, and with
    `Status.NO_MEMORY`.

    >>> with Kernel() as kernel:
    ...     kernel.make_funded("first", 10)
    ...     kernel.make_funded("second", 5)
    ...     kernel.draw(processor=1, number=9)
    Reply(kind=ReplyKind.FUNDED, ticket=1, thread=1)
    Reply(kind=ReplyKind.FUNDED, ticket=2, thread=2)
    Reply(kind=ReplyKind.WINNER, thread=1, number=9, total=15)

    A preemption before the quantum's end, an overrun after it, a sleep and a kill:

    >>> with Kernel(quantum=100) as kernel:
    ...     replies = kernel.run([events.make_funded("job", 10), events.draw(1, 0)])
    ...     kernel.preempt(processor=1, ticks=30)
    ...     kernel.thread_row(1).weight
    ...     replies = kernel.run([events.draw(1, 0), events.overrun(processor=1, late=100)])
    ...     kernel.thread_row(1).weight  # it ran for twice the quantum
    ...     replies = kernel.run([events.draw(1, 0), events.sleep(1, 49)])
    ...     kernel.thread_row(1).status.state, kernel.draw(1, 0).kind
    ...     kernel.wake(1)
    ...     kernel.draw(1, 19)  # it used half of its quantum, and so weighs twice its value
    ...     kernel.kill("job")
    ...     kernel.thread_row(1).status.state
    Reply(kind=ReplyKind.EXPIRED, thread=1, ticks=30)
    10
    5
    (ThreadState.ASLEEP, ReplyKind.IDLE)
    Reply(kind=ReplyKind.DONE)
    Reply(kind=ReplyKind.WINNER, thread=1, number=19, total=20)
    Reply(kind=ReplyKind.DONE)
    ThreadState.DEAD

    A dead thread keeps its name, and is removed once no ticket funds it:

    >>> with Kernel() as kernel:
    ...     replies = kernel.run([events.make_funded("job", 10), events.draw(1, 0), events.exit(1)])
    ...     kernel.remove_thread("job", check=False).refusal
    ...     replies = kernel.run([events.unfund(1), events.remove_thread("job")])
    ...     print(kernel.thread_row(1), kernel.make_funded("job", 10).thread)
    Refusal.IN_USE
    None 2
    """

    def __init__(
        self,
        *,
        tickets: int = 64,
        currencies: int = 16,
        threads: int = 16,
        ports: int = 2,
        mutexes: int = 2,
        processors: int = 2,
        scripts: int = 1,
        quantum: int = 100,
        unit: int = 1,
        reuse: bool = False,
        plain_names: bool = False,
        queued_lend: bool = False,
        check: bool = True,
    ) -> None:
        flags = reuse, plain_names, queued_lend
        sizes = Sizes(tickets, currencies, threads, ports, mutexes, processors, scripts, quantum, unit, *flags)
        self.check = check
        self._lock = threading.Lock()
        self._handle = library.Handle()
        raw = library.RawSizes()
        raw.set(sizes)
        must(calls.lot_kernel_new(byref(raw), byref(self._handle)))

    @staticmethod
    def bytes_of(sizes: Sizes) -> int:
        """The total of bytes that the library allocates for a kernel with these sizes, without Python's own objects.

        With `reuse` it is 4 more for each ticket, currency and thread, and for base. With `queued_lend` it is as much
        more for each port as for a mutex.

        Raises `LotError` with `Status.BAD_LIMITS` for sizes out of their bounds.
        """
        raw, count = library.RawSizes(), c_uint64()
        raw.set(sizes)
        must(calls.lot_kernel_bytes(byref(raw), byref(count)))
        return count.value

    def close(self) -> None:
        """Frees the memory, once the calls of other threads have returned. Closing a closed kernel does nothing."""
        with self._lock:
            calls.lot_kernel_free(byref(self._handle))

    @property
    def closed(self) -> bool:
        """Whether the kernel is closed."""
        with self._lock:
            return self._handle.at is None

    def __enter__(self) -> "Kernel":
        return self

    def __exit__(self, *_: object) -> None:
        self.close()

    def __del__(self) -> None:
        # There is no handle if the constructor raised, and there are no calls while the interpreter ends.
        if hasattr(self, "_handle") and calls is not None:
            self.close()

    def __repr__(self) -> str:
        return f"<lot.Kernel, {'closed' if self.closed else 'open'}>"

    def __reduce__(self) -> NoReturn:
        raise TypeError("a Kernel can't be copied or pickled, since it owns memory of the library")

    # ---- events

    def event(self, event: Event, *, check: Optional[bool] = None) -> Reply:
        """Makes an event of `lot.events`, and returns the reply."""
        raw, answer = library.RawEvent(), library.RawReply()
        raw.set(event)
        with self._lock:
            status = calls.lot_kernel_event(byref(self._handle), byref(raw), byref(answer))
        must(status)
        reply = answer.plain()
        if reply.refusal is not None and self._checks(check):
            raise Refused(event, reply)
        return reply

    def run(self, run: Iterable[Event], *, check: Optional[bool] = None) -> List[Reply]:
        """Makes many events of `lot.events` in one call, in order, and returns their replies.

        A run continues after a refusal. At its end, unless `check` is false, it raises `Refused` for the first refused
        event, with the replies to all events. At an event with a faulty name it stops and raises `RunError`, which has
        the number of events made. On a closed kernel it makes no event and raises `LotError`.

        >>> with Kernel() as kernel:
        ...     replies = kernel.run([events.make_funded("a", 3), events.draw(1, 2), events.expire(1)])
        >>> [reply.kind for reply in replies]
        [ReplyKind.FUNDED, ReplyKind.WINNER, ReplyKind.EXPIRED]
        """
        made = list(run)
        raw, answers, done = (library.RawEvent * len(made))(), (library.RawReply * len(made))(), c_size_t()
        for one, event in zip(raw, made):
            one.set(event)
        with self._lock:
            status = calls.lot_kernel_run(byref(self._handle), raw, len(raw), answers, len(answers), byref(done))
        if status in (Status.LONG_NAME, Status.BAD_NAME):
            raise RunError(status, [answer.plain() for answer in answers[: done.value]])
        must(status)
        replies = [answer.plain() for answer in answers]
        if self._checks(check):
            _raise_first_refusal(made, replies)
        return replies

    def _checks(self, check: Optional[bool]) -> bool:
        return self.check if check is None else check

    # ---- rows and counts

    def _read(self, call: Any, row: Union[Structure, c_uint32], *numbers: int) -> bool:
        """Reads a row with this call. Returns whether there is one."""
        given = [checked(number, NARROW, "number") for number in numbers]
        with self._lock:
            status = call(byref(self._handle), *given, byref(row))
        if status == Status.NOT_THERE:
            return False
        must(status)
        return True

    def ticket_row(self, ticket: int) -> Optional[TicketRow]:
        """The row of the ticket with this number, or `None`."""
        row = library.RawTicketRow()
        return row.plain() if self._read(calls.lot_kernel_ticket_row, row, ticket) else None

    def currency_row(self, currency: int) -> Optional[CurrencyRow]:
        """The row of the currency with this number, or `None`. Base has the number 0."""
        row = library.RawCurrencyRow()
        return row.plain() if self._read(calls.lot_kernel_currency_row, row, currency) else None

    def thread_row(self, thread: int) -> Optional[ThreadRow]:
        """The row of the thread with this number, or `None`. Numbers are at most `threads` of `sizes`."""
        row = library.RawThreadRow()
        return row.plain() if self._read(calls.lot_kernel_thread_row, row, thread) else None

    def runner(self, processor: int) -> Optional[Runner]:
        """The thread that runs on the processor, or `None`."""
        row = library.RawRunner()
        return row.plain() if self._read(calls.lot_kernel_runner, row, processor) else None

    def script_of(self, thread: int) -> Optional[int]:
        """The number of the thread's script, fixed when it was made, or `None`."""
        number = c_uint32()
        return number.value if self._read(calls.lot_kernel_script_of, number, thread) else None

    def ticket_count(self) -> int:
        """The number of tickets ever made, including removed ones. They are numbered from 1 to this number.

        One that got a number again doesn't count.
        """
        count = c_uint32()
        self._read(calls.lot_kernel_ticket_count, count)
        return count.value

    def currency_count(self) -> int:
        """The number of currencies ever made, with base and removed ones. They are numbered from 0 to one below it.

        One that got a number again doesn't count.
        """
        count = c_uint32()
        self._read(calls.lot_kernel_currency_count, count)
        return count.value

    def sizes(self) -> Sizes:
        """The sizes with which the kernel was made."""
        sizes = library.RawSizes()
        self._read(calls.lot_kernel_limits, sizes)
        return sizes.plain()

    def meter(self) -> Meter:
        """The kernel's counts of its own work."""
        meter = library.RawMeter()
        self._read(calls.lot_kernel_meter, meter)
        return meter.plain()


def _raise_first_refusal(run: Sequence[Event], replies: Sequence[Reply]) -> None:
    for event, reply in zip(run, replies):
        if reply.refusal is not None:
            raise Refused(event, reply, replies)
