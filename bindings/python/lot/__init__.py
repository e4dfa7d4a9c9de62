"""A lottery-scheduled kernel, proved, from Python.

A `Kernel` holds tickets, currencies, threads, ports and lottery mutexes. It takes events and replies to each. It runs
nothing itself: the replies name the threads to run. docs/MACHINE.md of the repository defines the effect of each event.

>>> import lot
>>> with lot.Kernel() as kernel:
...     first = kernel.make_funded("first", amount=10)
...     second = kernel.make_funded("second", amount=5)
...     print(kernel.draw(processor=1, number=9).thread)
1

A refused event raises `Refused`:

>>> with lot.Kernel() as kernel:
...     try:
...         kernel.draw(processor=3, number=9)
...     except lot.Refused as refused:
...         print(refused)
BAD_PROCESSOR: Event(kind=EventKind.DRAW, processor=3, number=9)

This package is a layer over the shared object liblot.so. The layer itself is only tested. `lot.library` lists the
places in which it looks for the shared object.
"""

from . import events
from .errors import Error, LotError, Refused, RunError
from .event import Event
from .kernel import Kernel
from .library import library_version
from .lottery import ParkMiller, weight, winner
from .numbers import EventKind, Outcome, Refusal, ReplyKind, Status, TargetKind, ThreadState
from .records import CurrencyRow, Drawn, Meter, Reply, Runner, Sizes, ThreadRow, ThreadStatus, TicketRow

__version__ = "0.4.0"

__all__ = [
    "CurrencyRow",
    "Drawn",
    "Error",
    "Event",
    "EventKind",
    "Kernel",
    "LotError",
    "Meter",
    "Outcome",
    "ParkMiller",
    "Refusal",
    "Refused",
    "Reply",
    "ReplyKind",
    "RunError",
    "Runner",
    "Sizes",
    "Status",
    "TargetKind",
    "ThreadRow",
    "ThreadState",
    "ThreadStatus",
    "TicketRow",
    "events",
    "library_version",
    "weight",
    "winner",
]
