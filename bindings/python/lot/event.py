"""An event.

>>> Event(EventKind.OVERRUN, processor=1, late=20)
Event(kind=EventKind.OVERRUN, processor=1, late=20)
>>> Event(EventKind.DRAW, processor=-1, number=9)
Traceback (most recent call last):
OverflowError: processor is 0 to 4294967295, and -1 was given
"""

from dataclasses import dataclass
from typing import Optional

from .numbers import NAMELESS, READS, EventKind
from .ranges import NARROW, WIDE, WIDEST, checked, checked_text
from .records import shown

# The exclusive upper bound of each numeric field. The others are names.
ENDS = {
    "processor": NARROW,
    "ticks": NARROW,
    "late": NARROW,
    "thread": NARROW,
    "currency_number": NARROW,
    "port": NARROW,
    "mutex": NARROW,
    "sent": NARROW,
    "script": NARROW,
    "number": WIDEST,
    "amount": WIDE,
    "ticket": WIDE,
}


@dataclass(frozen=True, repr=False)
class Event:
    """An event: its kind, and the fields that this kind reads. The functions of `lot.events` make them.

    Raises `TypeError` if one of these is missing or of another type, or if another field is given; `OverflowError` for
    a number out of its field's range; `ValueError` for a nonexistent kind. The name of a new thread may be missing:
    then it has none.
    """

    kind: EventKind
    processor: Optional[int] = None
    ticks: Optional[int] = None
    port: Optional[int] = None
    mutex: Optional[int] = None
    sent: Optional[int] = None
    script: Optional[int] = None
    number: Optional[int] = None  # a drawn number, any 128 bits
    amount: Optional[int] = None
    ticket: Optional[int] = None
    currency: Optional[str] = None  # by its name
    name: Optional[str] = None
    target: Optional[str] = None  # the currency or thread to fund
    thread: Optional[int] = None  # the number of the thread to wake, fund, remove or kill
    late: Optional[int] = None  # the ticks by which a quantum ended late
    currency_number: Optional[int] = None  # by its number

    def __post_init__(self) -> None:
        fields = self.__dict__  # sets fields of the frozen dataclass
        if type(self.kind) is not EventKind:
            fields["kind"] = EventKind(self.kind)
        reads = READS[self.kind]
        if self.name is None and self.kind in NAMELESS:
            reads = tuple(field for field in reads if field != "name")
        if list(fields.values()).count(None) != len(fields) - 1 - len(reads):
            raise TypeError(f"the fields of {self.kind.name} are {READS[self.kind]}, and {self!r} was given")
        for field in reads:
            end = ENDS.get(field)
            if end is None:
                checked_text(fields[field], field)
            elif type(fields[field]) is not int or not 0 <= fields[field] < end:
                fields[field] = checked(fields[field], end, field)

    __repr__ = shown
