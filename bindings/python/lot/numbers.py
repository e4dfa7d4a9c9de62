"""The numbers of the kernel, by name. They are those of lot.h, in every language.

Made by `bindings/write_tables` of `crates/lot_c/specs/Numbers.antt`.

>>> Refusal.NAME_TAKEN, int(Refusal.NAME_TAKEN)
(Refusal.NAME_TAKEN, 2)
>>> Refusal(36)
Refusal.LOCK_CYCLE
"""

from enum import IntEnum


class Number(IntEnum):
    """A number with a name. Its representation is the name alone, in every version of Python."""

    def __repr__(self) -> str:
        return f"{type(self).__name__}.{self.name}"


class Status(Number):
    """The statuses of calls."""

    DONE = 0  # done
    NO_KERNEL = 1  # the handle holds no kernel
    KERNEL_THERE = 2  # the handle holds a kernel already
    BAD_LIMITS = 3  # a size is out of its bounds
    NO_MEMORY = 4  # out of memory
    BAD_KIND = 5  # no such kind of event
    LONG_NAME = 6  # a name has more than 16 bytes
    BAD_NAME = 7  # a name is empty, or has a byte that names may not have
    NOT_THERE = 8  # nothing has this number
    COUNTS_DIFFER = 9  # not as many replies as events
    BAD_SEED = 10  # a seed or a generator's value is 0 or above 2147483646
    NO_WINNER = 11  # the weights sum to 0
    TOO_LARGE = 12  # the weights sum to 2 ^ 128 or more
    NOT_SETTLED = 13  # a value is stale, since an event may have changed it


class EventKind(Number):
    """The kinds of events. A kind by number has the effect and the refusals of that by name."""

    MAKE_TICKET = 1
    REMOVE_TICKET = 2
    MAKE_CURRENCY = 3
    REMOVE_CURRENCY = 4
    FUND = 5
    UNFUND = 6
    MAKE_THREAD = 7
    MAKE_FUNDED = 8
    LIST_TICKETS = 9
    LIST_CURRENCIES = 10
    LIST_THREADS = 11
    DRAW = 12
    EXPIRE = 13
    YIELD = 14
    CALL = 15
    RECEIVE = 16
    REPLY = 17
    LOCK = 18
    UNLOCK = 19
    EXIT = 20
    SERVE = 21
    SET_TICKET = 22
    REMOVE_THREAD = 23
    SLEEP = 24
    PREEMPT = 25
    OVERRUN = 26
    WAKE = 27
    MAKE_TICKET_IN = 28
    REMOVE_CURRENCY_NUMBERED = 29
    FUND_CURRENCY = 30
    FUND_THREAD = 31
    REMOVE_THREAD_NUMBERED = 32
    MAKE_FUNDED_IN = 33
    KILL = 34
    KILL_NUMBERED = 35


class ReplyKind(Number):
    """The kinds of replies, with the fields that each sets."""

    TICKET = 1  # ticket: its number. A ticket was made.
    CURRENCY = 2  # currency: its number. A currency was made.
    THREAD = 3  # thread: its number. A thread was made.
    # ticket: the ticket's number; thread: the thread's number. A thread and the ticket that funds it were made.
    FUNDED = 4
    DONE = 5  # The event is done.
    LIST_TICKETS = 6  # A listing was requested. Read the rows one by one.
    LIST_CURRENCIES = 7  # A listing was requested. Read the rows one by one.
    LIST_THREADS = 8  # A listing was requested. Read the rows one by one.
    # thread: its number; number: the drawn number, below the total; total: the sum of the weights, in base units;
    # sent: the number sent to the thread while it waited, by a call or a reply. A thread won the draw, and runs on the
    # processor.
    WINNER = 9
    IDLE = 10  # No ready thread has any weight, perhaps as values round to 0, and nothing has changed.
    # thread: its number; ticks: the ticks that it is charged. A thread's quantum is over, or it was preempted, and it
    # no longer runs.
    EXPIRED = 11
    # thread: its number; ticks: the ticks that it ran since its last event, the trap's own included; outcome: the
    # trap's outcome; ends: whether its quantum is used up, so that it no longer runs though the outcome would let it
    # go on; goes_on: whether it runs on, since its outcome leaves it on its processor and its quantum isn't used up. A
    # thread made a trap.
    TRAPPED = 12
    REFUSED = 13  # refusal: the refusal. The event is refused, and has changed nothing.


class Outcome(Number):
    """The outcomes of traps, with the fields that each sets."""

    YIELDED = 1  # The thread gave up the rest of its quantum. It no longer runs.
    SERVED_BY = 2  # other: the thread that serves the call. The caller no longer runs.
    QUEUED = 3  # The call waits for a server. The caller no longer runs.
    WAITS = 4  # The thread waits for a call or for a mutex. It no longer runs.
    RECEIVED = 5  # other: the thread that called; sent: the number that it sent. A call was taken.
    REPLIED = 6  # other: the client. A client got a reply.
    LOCKED = 7  # The thread owns the mutex.
    FREED = 8  # The mutex is free.
    # other: the new owner; number, total: the number and the total of the lottery, if one was held: not if the waiters
    # were worth nothing, so that the one that had waited longest got the mutex. The mutex was passed on. The thread
    # that unlocked it no longer runs.
    PASSED = 9
    EXITED = 10  # The thread has ended.
    REFUSED = 11  # refusal: the refusal. The trap is refused. It cost its ticks even so.
    # replied_to: the client that got the reply; other: the thread that called; sent: the number that it sent. A client
    # got a reply, and then a call was taken.
    REPLIED_THEN_RECEIVED = 12
    # replied_to: the client that got the reply. The thread waits for a call. It no longer runs.
    REPLIED_THEN_WAITS = 13
    SLEPT = 14  # The thread sleeps until it is woken. It no longer runs.


class Refusal(Number):
    """The reasons for refusing an event or, from 30 on, a trap. A refused trap costs its ticks even so."""

    BAD_NAME = 1  # the kernel doesn't take such a name. For C and Python that is a status.
    NAME_TAKEN = 2  # a currency or a thread, perhaps a dead one, has the name already. Removed ones don't count.
    NO_CURRENCY = 3  # no currency has the name or the number
    NO_TICKET = 4  # no ticket has the number
    NO_TARGET = 5  # no currency or thread has the name or the number
    BAD_AMOUNT = 6  # the amount is 0 or above 4294967295
    IN_USE = 7  # tickets are in it or fund it, or the thread has a client or owns a mutex
    FUNDING = 8  # the ticket funds something already
    NOT_FUNDING = 9  # the ticket funds nothing
    CYCLE = 10  # the funding would close a cycle of currencies
    BASE_FIXED = 11  # base can be neither removed nor funded
    DEAD_THREAD = 12  # the thread has ended
    # the kernel has room for no more of them. `tickets`, `currencies` or `threads` of the sizes is reached, whichever
    # the event adds to, by all ever made or, with `reuse`, by what exists.
    FULL = 13
    NO_SCRIPT = 14  # no script has the number
    NO_THREAD = 15  # no thread has the name or the number. A dead one has both until it is removed.
    ALIVE = 16  # the thread hasn't ended. It may wait for good.
    BAD_PROCESSOR = 20  # no processor has the number
    BUSY = 21  # a thread runs on the processor already
    NOT_RUNNING = 22  # no thread runs on the processor
    BAD_TICKS = 23  # the ticks are more than the quantum has left, or than may be counted. A trap's own tick counts.
    NOT_ASLEEP = 24  # the thread doesn't sleep. It is ready, runs, waits or is dead.
    NO_PORT = 30  # no port has the number
    NOTHING_TO_REPLY = 32  # the thread serves no client
    NO_MUTEX = 33  # no mutex has the number
    NOT_OWNER = 34  # the thread doesn't own the mutex
    ALREADY_OWNER = 35  # the thread owns the mutex already
    # the wait would close a cycle of threads that wait for each other. Calls that are queued at a port don't count.
    LOCK_CYCLE = 36


class ThreadState(Number):
    """The statuses of threads, with the fields that each sets."""

    READY = 1  # it competes in draws
    RUNNING = 2  # it runs on `processor`, and has used `used` ticks of its quantum, below the quantum
    RECEIVING = 3  # it waits for a call at the port `other`
    QUEUED = 4  # its call waits at the port `other`
    SERVED = 5  # the thread `other` serves it
    WAITING = 6  # it waits for the mutex `other`
    DEAD = 7  # it has ended
    ASLEEP = 8  # it sleeps until it is woken


class TargetKind(Number):
    """What a ticket funds."""

    NONE = 0  # nothing; target_number is 0
    CURRENCY = 1  # target_number is the currency's, from 0
    THREAD = 2  # target_number is the thread's, from 1


# The fields of `Event` that each kind reads.
READS = {
    EventKind.MAKE_TICKET: ("amount", "currency"),
    EventKind.REMOVE_TICKET: ("ticket",),
    EventKind.MAKE_CURRENCY: ("name",),
    EventKind.REMOVE_CURRENCY: ("currency",),
    EventKind.FUND: ("ticket", "target"),
    EventKind.UNFUND: ("ticket",),
    EventKind.MAKE_THREAD: ("name", "script"),
    EventKind.MAKE_FUNDED: ("amount", "currency", "name", "script"),
    EventKind.LIST_TICKETS: (),
    EventKind.LIST_CURRENCIES: (),
    EventKind.LIST_THREADS: (),
    EventKind.DRAW: ("processor", "number"),
    EventKind.EXPIRE: ("processor",),
    EventKind.YIELD: ("processor", "ticks"),
    EventKind.CALL: ("processor", "ticks", "port", "sent"),
    EventKind.RECEIVE: ("processor", "ticks", "port"),
    EventKind.REPLY: ("processor", "ticks", "sent"),
    EventKind.LOCK: ("processor", "ticks", "mutex"),
    EventKind.UNLOCK: ("processor", "ticks", "mutex", "number"),
    EventKind.EXIT: ("processor", "ticks"),
    EventKind.SERVE: ("processor", "ticks", "port", "sent"),
    EventKind.SET_TICKET: ("ticket", "amount"),
    EventKind.REMOVE_THREAD: ("name",),
    EventKind.SLEEP: ("processor", "ticks"),
    EventKind.PREEMPT: ("processor", "ticks"),
    EventKind.OVERRUN: ("processor", "late"),
    EventKind.WAKE: ("thread",),
    EventKind.MAKE_TICKET_IN: ("amount", "currency_number"),
    EventKind.REMOVE_CURRENCY_NUMBERED: ("currency_number",),
    EventKind.FUND_CURRENCY: ("ticket", "currency_number"),
    EventKind.FUND_THREAD: ("ticket", "thread"),
    EventKind.REMOVE_THREAD_NUMBERED: ("thread",),
    EventKind.MAKE_FUNDED_IN: ("amount", "currency_number", "name", "script"),
    EventKind.KILL: ("name",),
    EventKind.KILL_NUMBERED: ("thread",),
}
# The kinds that make a thread, which may have no name.
NAMELESS = (EventKind.MAKE_THREAD, EventKind.MAKE_FUNDED, EventKind.MAKE_FUNDED_IN)
