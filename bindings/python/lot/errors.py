"""The errors of this package. Each can be pickled, so it passes between the processes of a pool."""

from __future__ import annotations

from typing import TYPE_CHECKING, Any, Sequence

from .numbers import Status

if TYPE_CHECKING:
    from .event import Event
    from .records import Reply

_TEXTS = {
    Status.DONE: "done",
    Status.NO_KERNEL: "the kernel is closed",
    Status.KERNEL_THERE: "there is a kernel already",
    Status.BAD_LIMITS: "a size is out of its bounds",
    Status.NO_MEMORY: "out of memory",
    Status.BAD_KIND: "there is no such kind of event",
    Status.LONG_NAME: "a name has more than 16 bytes",
    Status.BAD_NAME: "a name is empty, or has a byte that the kernel's names may not have",
    Status.NOT_THERE: "nothing has this number",
    Status.COUNTS_DIFFER: "there are not as many replies as events",
    Status.BAD_SEED: "a seed is 1 to 2147483646",
    Status.NO_WINNER: "the weights sum to 0",
    Status.TOO_LARGE: "the weights sum to 2 ** 128 or more",
    Status.NOT_SETTLED: "the kernel isn't settled",
}


class Error(Exception):
    """Any error of this package, `LotError` or `Refused`."""


class LotError(Error):
    """A failed call, which has changed nothing. `status` gives the reason."""

    status: Status

    def __init__(self, status: int) -> None:
        self.status = Status(status)
        super().__init__(_TEXTS[self.status])

    def __reduce__(self) -> "tuple[Any, ...]":
        return type(self), (self.status,)


class RunError(LotError):
    """A run with a faulty event. It has made the events before that one, and no others.

    `done` is their number, and so the faulty event's index. `replies` has their replies.
    """

    replies: "tuple[Reply, ...]"
    done: int

    def __init__(self, status: int, replies: Sequence[Reply]) -> None:
        super().__init__(status)
        self.replies = tuple(replies)
        self.done = len(self.replies)

    def __str__(self) -> str:
        return f"after {self.done} events of the run: {super().__str__()}"

    def __reduce__(self) -> "tuple[Any, ...]":
        return type(self), (self.status, self.replies)


class Refused(Error):
    """The kernel refused an event or a trap. A refused event has changed nothing; a refused trap has cost its ticks.

    `refusal` is the reason, `reply` the kernel's reply, and `event` the event. `replies` is empty, except after a run:
    a run continues after a refusal, so there it has the replies to all events.
    """

    def __init__(self, event: Event, reply: Reply, replies: Sequence[Reply] = ()) -> None:
        self.event = event
        self.reply = reply
        self.refusal = reply.refusal
        self.replies = tuple(replies)
        why = "no refusal" if reply.refusal is None else reply.refusal.name
        super().__init__(f"{why}: {event!r}")

    def __reduce__(self) -> "tuple[Any, ...]":
        return type(self), (self.event, self.reply, self.replies)
