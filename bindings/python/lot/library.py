"""The shared object through ctypes: its structures, its calls, and the conversion of plain values.

bindings/c/lot.h documents each call. The package looks for the shared object in this order:

1. the file named by the environment variable LOT_SHARED;
2. liblot.so in this package, as in a wheel;
3. the release's for this processor, such as dist/x86_64-linux/liblot.so, if the package is in the repository.
"""

import ctypes
import os
import platform
from ctypes import POINTER, Structure, c_bool, c_char, c_size_t, c_uint32, c_uint64, c_void_p
from pathlib import Path
from typing import Dict, List, Optional, Tuple

from . import records
from .errors import LotError
from .event import Event
from .numbers import READS, Outcome, Refusal, ReplyKind, Status, TargetKind, ThreadState

LOW_BITS = (1 << 64) - 1
LONGEST_NAME = 16


class Name(Structure):
    """lot_name. For a name that is too long, only the fact that it is remains. No name has length 0."""

    _fields_ = [("length", c_uint32), ("bytes", c_char * LONGEST_NAME)]

    def set(self, text: Optional[str]) -> None:
        """Stores a text, which the library then accepts or refuses, or no name.

        An empty text isn't no name, so it becomes a byte that the library refuses.
        """
        raw = b"" if text is None else text.encode("utf-8", "surrogatepass") or b"\0"
        self.length = min(len(raw), LONGEST_NAME + 1)
        self.bytes = raw[:LONGEST_NAME]

    def plain(self) -> str:
        """The text of a name from the library, which is empty for no name."""
        return bytes(self.bytes).decode("ascii")


class Wide(Structure):
    """lot_wide."""

    _fields_ = [("low", c_uint64), ("high", c_uint64)]

    def set(self, number: int) -> None:
        """Stores a number below 2 ** 128."""
        self.low = number & LOW_BITS
        self.high = number >> 64

    def plain(self) -> int:
        """The number."""
        return int(self.high) << 64 | int(self.low)


class Handle(Structure):
    """lot_kernel."""

    _fields_ = [("at", c_void_p)]


class RawSizes(Structure):
    """lot_sizes."""

    _fields_ = [
        ("tickets", c_uint32),
        ("currencies", c_uint32),
        ("threads", c_uint32),
        ("ports", c_uint32),
        ("mutexes", c_uint32),
        ("processors", c_uint32),
        ("scripts", c_uint32),
        ("quantum", c_uint32),
        ("unit", c_uint32),
        ("reuse", c_uint32),
        ("plain_names", c_uint32),
        ("queued_lend", c_uint32),
    ]

    def set(self, sizes: records.Sizes) -> None:
        """Stores the sizes."""
        for field, _ in self._fields_:
            setattr(self, field, getattr(sizes, field))

    def plain(self) -> records.Sizes:
        """The sizes."""
        return records.Sizes(*(getattr(self, field) for field, _ in self._fields_))


class RawEvent(Structure):
    """lot_event."""

    _fields_ = [
        ("kind", c_uint32),
        ("processor", c_uint32),
        ("ticks", c_uint32),
        ("object", c_uint32),
        ("sent", c_uint32),
        ("script", c_uint32),
        ("number", Wide),
        ("amount", c_uint64),
        ("ticket", c_uint64),
        ("currency", Name),
        ("name", Name),
    ]

    def set(self, event: Event) -> None:
        """Stores the fields that the event's kind reads. Raises `TypeError` for a value that is no `Event`."""
        if not isinstance(event, Event):
            raise TypeError(f"an Event is to be made, and {event!r} was given")
        self.kind = event.kind
        for field in READS[event.kind]:
            value = getattr(event, field)
            to = _FIELD_OF.get(field, field)
            if to in _STRUCTURES:
                getattr(self, to).set(value)
            else:
                setattr(self, to, value)


# The field of lot_event for a field of `Event`, where the names differ.
_FIELD_OF = {
    "port": "object",
    "mutex": "object",
    "thread": "object",
    "currency_number": "object",
    "late": "ticks",
    "target": "name",
}
_STRUCTURES = {"number", "currency", "name"}


class RawReply(Structure):
    """lot_reply."""

    _fields_ = [
        ("number", Wide),
        ("total", Wide),
        ("kind", c_uint32),
        ("reason", c_uint32),
        ("ticket", c_uint32),
        ("currency", c_uint32),
        ("thread", c_uint32),
        ("ticks", c_uint32),
        ("outcome", c_uint32),
        ("other", c_uint32),
        ("replied_to", c_uint32),
        ("sent", c_uint32),
        ("has_sent", c_bool),
        ("has_draw", c_bool),
        ("ends", c_bool),
        ("goes_on", c_bool),
    ]

    def plain(self) -> records.Reply:
        """The reply. An unset field is 0. For a field that may be set to 0 there is a flag, or the kind tells whether
        it is set.
        """
        kind = _REPLY_KINDS[self.kind]
        return records.Reply(
            kind,
            ticket=self.ticket or None,
            currency=self.currency or None,
            thread=self.thread or None,
            number=self.number.plain() if self.has_draw else None,
            total=self.total.plain() if self.has_draw else None,
            ticks=self.ticks if kind in _HAVE_TICKS else None,
            outcome=_OUTCOMES[self.outcome],
            other=self.other or None,
            replied_to=self.replied_to or None,
            sent=self.sent if self.has_sent else None,
            ends=self.ends if kind is ReplyKind.TRAPPED else None,
            goes_on=self.goes_on if kind is ReplyKind.TRAPPED else None,
            refusal=_REFUSALS[self.reason],
        )


# A table lookup takes a tenth of the time of `ReplyKind(number)`.
_REPLY_KINDS: Dict[int, ReplyKind] = {int(kind): kind for kind in ReplyKind}
_HAVE_TICKS = (ReplyKind.EXPIRED, ReplyKind.TRAPPED)
_OUTCOMES: Dict[int, Optional[Outcome]] = {0: None, **{int(outcome): outcome for outcome in Outcome}}
_REFUSALS: Dict[int, Optional[Refusal]] = {0: None, **{int(refusal): refusal for refusal in Refusal}}


class RawTicketRow(Structure):
    """lot_ticket_row."""

    _fields_ = [
        ("value", c_uint64),
        ("amount", c_uint32),
        ("issuer", Name),
        ("target", Name),
        ("target_kind", c_uint32),
        ("target_number", c_uint32),
        ("has_target", c_bool),
        ("is_active", c_bool),
    ]

    def plain(self) -> records.TicketRow:
        """The row."""
        kind, issuer, target = TargetKind(self.target_kind), self.issuer.plain(), self.target.plain() or None
        number = self.target_number if self.has_target else None
        return records.TicketRow(self.value, self.amount, issuer, target, kind, number, self.is_active)


class RawCurrencyRow(Structure):
    """lot_currency_row."""

    _fields_ = [
        ("active_amount", c_uint64),
        ("value", c_uint64),
        ("backing", c_uint32),
        ("issued", c_uint32),
        ("name", Name),
    ]

    def plain(self) -> records.CurrencyRow:
        """The row."""
        return records.CurrencyRow(self.name.plain(), self.value, self.active_amount, self.backing, self.issued)


class RawThreadStatus(Structure):
    """lot_thread_status."""

    _fields_ = [("kind", c_uint32), ("processor", c_uint32), ("used", c_uint32), ("other", c_uint32)]

    def plain(self) -> records.ThreadStatus:
        """The thread's status."""
        state = ThreadState(self.kind)
        if state is ThreadState.RUNNING:
            return records.ThreadStatus(state, processor=self.processor, used=self.used)
        return records.ThreadStatus(state, other=self.other or None)


class RawThreadRow(Structure):
    """lot_thread_row."""

    _fields_ = [
        ("weight", Wide),
        ("value", c_uint64),
        ("quanta", c_uint64),
        ("ticks", c_uint64),
        ("status", RawThreadStatus),
        ("name", Name),
    ]

    def plain(self) -> records.ThreadRow:
        """The row."""
        name, status = self.name.plain() or None, self.status.plain()
        return records.ThreadRow(name, status, self.value, self.weight.plain(), self.quanta, self.ticks)


class RawRunner(Structure):
    """lot_runner."""

    _fields_ = [("thread", c_uint32), ("used", c_uint32)]

    def plain(self) -> records.Runner:
        """The runner."""
        return records.Runner(self.thread, self.used)


class RawMeter(Structure):
    """lot_meter."""

    _fields_ = [("ticket_reads", c_uint64), ("tree_visits", c_uint64)]

    def plain(self) -> records.Meter:
        """The counts."""
        return records.Meter(self.ticket_reads, self.tree_visits)


class Generator(Structure):
    """lot_generator."""

    _fields_ = [("value", c_uint32)]


class RawDrawn(Structure):
    """lot_drawn."""

    _fields_ = [("number", Wide), ("total", Wide), ("place", c_uint64)]

    def plain(self) -> records.Drawn:
        """The winner's place, the number and the total."""
        return records.Drawn(self.place, self.number.plain(), self.total.plain())


def _arguments() -> Dict[str, List[type]]:
    """The argument types of each call that returns a status."""
    kernel = POINTER(Handle)
    return {
        "lot_kernel_new": [POINTER(RawSizes), kernel],
        "lot_kernel_bytes": [POINTER(RawSizes), POINTER(c_uint64)],
        "lot_kernel_free": [kernel],
        "lot_kernel_event": [kernel, POINTER(RawEvent), POINTER(RawReply)],
        "lot_kernel_run": [kernel, POINTER(RawEvent), c_size_t, POINTER(RawReply), c_size_t, POINTER(c_size_t)],
        "lot_kernel_ticket_row": [kernel, c_uint32, POINTER(RawTicketRow)],
        "lot_kernel_currency_row": [kernel, c_uint32, POINTER(RawCurrencyRow)],
        "lot_kernel_thread_row": [kernel, c_uint32, POINTER(RawThreadRow)],
        "lot_kernel_runner": [kernel, c_uint32, POINTER(RawRunner)],
        "lot_kernel_script_of": [kernel, c_uint32, POINTER(c_uint32)],
        "lot_kernel_ticket_count": [kernel, POINTER(c_uint32)],
        "lot_kernel_currency_count": [kernel, POINTER(c_uint32)],
        "lot_kernel_limits": [kernel, POINTER(RawSizes)],
        "lot_kernel_meter": [kernel, POINTER(RawMeter)],
        "lot_generator_new": [c_uint32, POINTER(Generator)],
        "lot_generator_next": [POINTER(Generator), POINTER(c_uint32)],
        "lot_generator_number": [POINTER(Generator), POINTER(c_uint64)],
        "lot_generator_wide_number": [POINTER(Generator), POINTER(Wide)],
        "lot_winner": [POINTER(Wide), c_size_t, POINTER(Wide), POINTER(RawDrawn)],
    }


def found() -> Path:
    """The file to load. Raises `ImportError` if there is none."""
    package = Path(__file__).resolve().parent
    named = os.environ.get("LOT_SHARED")
    if named:
        return Path(named)
    places: Tuple[Path, ...] = (package / "liblot.so",)
    if len(package.parents) > 2:
        places += (package.parents[2] / "dist" / f"{platform.machine()}-linux" / "liblot.so",)
    for place in places:
        if place.exists():
            return place
    looked = ", ".join(str(place) for place in places)
    raise ImportError(f"there is no shared object at {looked}, and LOT_SHARED names none")


def load(path: Path) -> ctypes.CDLL:
    """Loads the shared object. Other threads of Python run during its calls, so each kernel has a lock."""
    shared = ctypes.CDLL(str(path))
    for name, arguments in _arguments().items():
        call = getattr(shared, name)
        call.argtypes = arguments
        call.restype = c_uint32
    shared.lot_weight.argtypes = [c_uint64, c_uint32, c_uint32, POINTER(Wide)]
    shared.lot_weight.restype = None
    shared.lot_version.argtypes = []
    shared.lot_version.restype = c_uint32
    return shared


def must(status: int) -> None:
    """Raises `LotError` unless the status is that of success."""
    if status != Status.DONE:
        raise LotError(status)


calls = load(found())


def library_version() -> str:
    """The version of the shared object.

    >>> library_version()
    '0.4.0'
    """
    version = calls.lot_version()
    return f"{version >> 16}.{version >> 8 & 255}.{version & 255}"
