"""The results of calls, as plain values: names are `str`, numbers `int`, and a missing value is `None`."""

import dataclasses
from dataclasses import dataclass
from typing import TYPE_CHECKING, Any, NamedTuple, Optional

from .numbers import Outcome, Refusal, ReplyKind, TargetKind, ThreadState
from .ranges import NARROW, checked


def shown(record: Any) -> str:
    """The constructor call of a dataclass, without the fields that are `None`."""
    values = ((field.name, getattr(record, field.name)) for field in dataclasses.fields(record))
    return f"{type(record).__name__}({', '.join(f'{name}={value!r}' for name, value in values if value is not None)})"


@dataclass(frozen=True)
class Sizes:
    """The sizes of a kernel. It never grows, and removed ones count for the limits, unless `reuse` is set.

    With `reuse` the numbers of removed tickets, currencies and threads are given again, the last removed first, and the
    limits count what exists at once. A number that was kept of what is removed then comes to mean another thing, so
    forget it with the removal.

    With `plain_names` a name may have any printable ASCII but the space. Otherwise it is a letter a to z, followed by
    letters a to z, digits, '_' or '-'.

    With `queued_lend` a thread whose call is queued lends to the port's server, the thread that took the last call
    there. So a server that works for a poor client has the funding of the rich ones whose calls wait.

    Values are whole numbers, rounded down: a ticket of a currency is worth 0 if the currency's value times the ticket's
    amount is below the currency's active amount, and a thread that is worth 0 wins no draw. So give tickets of base
    amounts of a million: it costs nothing.

    Raises `TypeError` or `OverflowError` for a value that is no number of 32 bits. The kernel checks the bounds.
    """

    tickets: int  # the largest number ever made, 1 to 65535
    currencies: int  # the largest number ever made, not counting base, 1 to 4096
    threads: int  # the largest number ever made, 1 to 4096
    ports: int  # at most 256
    mutexes: int  # at most 256
    processors: int  # 1 to 64
    scripts: int  # at most 256; a thread's script is a number that the kernel keeps for its caller
    quantum: int  # in ticks, 1 to 1000
    unit: int  # the value of one of base: 1, or 256 for finer shares
    reuse: bool = False  # whether numbers are given again; any number but 0 counts as `True`
    plain_names: bool = False  # whether there are plain names; likewise
    queued_lend: bool = False  # whether queued calls lend; likewise

    def __post_init__(self) -> None:
        for field in dataclasses.fields(self):
            value = getattr(self, field.name)
            if field.name not in ("reuse", "plain_names", "queued_lend"):
                value = checked(value, NARROW, field.name)
            elif not isinstance(value, bool):
                value = checked(value, NARROW, field.name) != 0
            object.__setattr__(self, field.name, value)


@dataclass(frozen=True, repr=False)
class Reply:
    """The reply to an event. `ReplyKind` and `Outcome` list the fields of each kind; the others are `None`.

    >>> Reply(ReplyKind.FUNDED, ticket=1, thread=1)
    Reply(kind=ReplyKind.FUNDED, ticket=1, thread=1)
    """

    kind: ReplyKind
    ticket: Optional[int] = None
    currency: Optional[int] = None
    thread: Optional[int] = None
    number: Optional[int] = None  # the drawn number of a lottery, below the total
    total: Optional[int] = None  # the sum of a lottery's weights
    ticks: Optional[int] = None
    outcome: Optional[Outcome] = None
    other: Optional[int] = None
    replied_to: Optional[int] = None
    sent: Optional[int] = None
    ends: Optional[bool] = None  # for a trap: its thread would go on, but its quantum is used up
    goes_on: Optional[bool] = None  # for a trap: its thread runs on
    refusal: Optional[Refusal] = None  # for a refused event or trap

    __repr__ = shown


# For type checkers: what a method promises of a reply that is no refusal. There is one class alone.
if TYPE_CHECKING:

    class TicketReply(Reply):
        ticket: int

    class CurrencyReply(Reply):
        currency: int

    class ThreadReply(Reply):
        thread: int

    class FundedReply(Reply):
        ticket: int
        thread: int

    class ExpiredReply(Reply):
        thread: int
        ticks: int

    class TrappedReply(Reply):
        thread: int
        ticks: int
        outcome: Outcome
        ends: bool
        goes_on: bool

else:
    TicketReply = CurrencyReply = ThreadReply = FundedReply = ExpiredReply = TrappedReply = Reply


@dataclass(frozen=True)
class TicketRow:
    """A ticket."""

    value: int  # in base units; 0 if it is inactive
    amount: int
    issuer: str  # the currency that issues it
    target: Optional[str]  # the name of what it funds; `None` for nothing, and for a thread without a name
    target_kind: TargetKind
    target_number: Optional[int]  # the currency or thread that it funds
    is_active: bool


@dataclass(frozen=True)
class CurrencyRow:
    """A currency."""

    name: str
    value: int  # in base units
    active_amount: int  # the sum of the amounts of its active issued tickets
    backing: int  # the number of tickets that fund it, active or not
    issued: int  # the number of tickets that it issues, active or not


@dataclass(frozen=True, repr=False)
class ThreadStatus:
    """A thread's status. `ThreadState` lists the fields of each state; the others are `None`."""

    state: ThreadState
    processor: Optional[int] = None
    used: Optional[int] = None
    other: Optional[int] = None

    __repr__ = shown


@dataclass(frozen=True)
class ThreadRow:
    """A thread."""

    name: Optional[str]
    status: ThreadStatus
    value: int  # in base units
    weight: int  # its weight in a draw, in base units
    quanta: int  # the draws that it has won
    ticks: int  # the total of ticks that it has run


@dataclass(frozen=True)
class Runner:
    """The thread that runs on a processor."""

    thread: int
    used: int  # the ticks of its quantum that it has used, below the quantum


@dataclass(frozen=True)
class Meter:
    """A kernel's counts of its own work."""

    ticket_reads: int  # the number of tickets, lends and owners read to compute values
    tree_visits: int  # the number of places of the tree of weights that draws visited


class Drawn(NamedTuple):
    """The result of `winner`."""

    place: int  # the winner's index among the weights, from 0
    number: int  # the number modulo the total
    total: int  # the sum of the weights
